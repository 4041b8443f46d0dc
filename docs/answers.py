#!/usr/bin/env python3
"""Writes docs/ANSWERS.md: of each answer of the program and of its engines, the clause that tells its cause.

    docs/answers.py [--check]

With --check it writes nothing, and says whether the page is what it would write. It takes less than a second.

The tables below name what they rest on: a call, a clause of its contract, a part of the record that the clause cites, and
lines of definitions. All of it is looked for in crates/*/src and crates/*/specs, and what isn't there any more ends the
script with 1. The statuses and the lines of the faults are read there too. And each variant of a refusal, of a fault and
of a stop in a crate that the program stands on is to have its row.

A row is `Variant | when it comes | clauses | lines`. Clauses are separated by commas: a clause's name, or a relation
that a clause cites, where `IsFix.works` is a part of a record, or, of a clause without a name, some words of it. Before
them a call's name and a colon may stand, and further calls follow a semicolon; else all calls of the table are meant.
Lines are separated by two semicolons; a crate's name and a colon before a line say that it is another crate's.
"""

import functools
import glob
import os
import re
import sys

TOP = os.path.dirname(os.path.dirname(os.path.abspath(__file__)))
PAGE = os.path.join(TOP, "docs", "ANSWERS.md")
PROGRAM = "dvdisaster_rs01"

READ_ROSE = "rs01_outside: pub read_rose : IsTrue read_failed → Rose old.read_faults new.read_faults"
WRITE_ROSE = "rs01_outside: pub write_rose : IsTrue write_failed → Rose old.write_faults new.write_faults"
READS_ROSE = "rs01_outside: pub rose : IsTrue failed → Rose old.read_faults new.read_faults"
FREE = "free: no clause ties it to a cause"
READ = "only where the desk's count of read faults rose in this call"
WRITE = "only where the desk's count of write faults rose in this call"

HEAD = """# Each answer and the clause that tells its cause

`docs/answers.py` makes this page from the sources, and `docs/answers.py --check`, which `.ci/run` runs, says whether it
is up to date. Each clause and each line below stands in the sources.

Want of memory is the one free answer: no clause ties it to a refused request, no other answer is told in its place, and
"exactly where" yields to it. Where the contents of files are spoken of, "exactly where" yields also to a fault of reading
or writing in the same call, which has its own cause; and where a run's status is, to status 4 and 6 with theirs.
"""

STATUS_CALLS = {"run": "rs01_top", "run_one": "rs01_top"}
STATUSES = """
0 | exactly where the command was done and nothing is lost, strange, missing, altered or unreadable by its report | IsRun.answer | pub number : status ≡ 0 ;; fixed_status report = if (length report.lost == 0) && (length report.strange == 0) then 0 else 1 ;; if (length report.missing == 0) && ((length report.altered == 0) && is_match report.image) then 0 else 1 ;; scanned_status report = if (length report.unreadable == 0) && (length report.altered == 0) then 0 else 1 ;; read_status report = if (length report.lost == 0) && (length report.strange == 0) then 0 else 1 ;; shown_status repaired = if is_whole repaired.report then 0 else 1
1 | exactly where the command was done and it is otherwise | IsRun.answer | Answers work old new put status = AnswersBy (work.refusal old) work.done old new put status
2 | exactly where the words aren't in the grammar | IsRun.only_refused, IsRun.refused | work_by words (Err refused) = no_work (word_fault refused)
3 | where files are told, exactly where the files that are found refuse the work | IsRun.only_refused, IsRun.refused | pub first : work.refusal (outside_of old) ≡ Some why ;; refusal = λ found. fault_if create_fault (refusal_of (found.files image)); ;; refusal = λ found. fault_in fix_fault (answer_to image ecc cut found); ;; refusal = λ found. fault_in verify_fault (answer_to image ecc found); ;; refusal = λ found. fault_in read_fault (medium_in ecc found);
4 | only where the desk's count of read or of write faults rose in this run; the line is that kind's | IsRun.cause, IsRun.quiet | (Rose old.desk.read_faults new.desk.read_faults × Tells old.out new.out (fault_line fault.ReadFault)) ;; (Rose old.desk.write_faults new.desk.write_faults × Tells old.out new.out (fault_line fault.WriteFault))
5 | only where the drives refuse the work, and exactly there where files and drives are told | IsRun.only_refused, IsRun.refused, IsRun.cause | pub drives : status ≡ 5 → RefusesDrives work old new ;; pub drives_are : HasDriveCause work why old.rack new.rack
6 | only where the output's count of faults rose in this run | IsRun.cause | pub output : status ≡ 6 → Rose old.out.faults new.out.faults
7 | free: no clause ties it to a cause; some first bytes of its line were put | IsRun.cause | pub memory : status ≡ 7 → Begins old.out new.out (fault_line fault.OutOfMemory)
"""

TABLES = [
    (
        "Words",
        "rs01_words::WordFault",
        {"read_words": "rs01_words"},
        """
NoCommand | exactly where there are no words | answer | words_of [] = Err (refused NoCommand 0)
UnknownCommand | exactly where the first word is no command | answer | answer_by None words = Err (refused UnknownCommand 0)
UnknownOption | exactly where this word is the first with a fault, and the command has no such option or no further plain word | answer | option_fault None given last = Some UnknownOption ;; value_fault None word = Some UnknownOption
Repeated | exactly where this word is the first with a fault, and the option was given as often as it may be | answer | if nat_le (row_of option).most given then Some Repeated
NoValue | exactly where this word is the first with a fault, and the option's value is missing | answer | else (if is_some (row_of option).value && last then Some NoValue else None)
BadNumber | exactly where this word is the first with a fault, and is no number | answer | if not (is_decimal word) then Err BadNumber
OutOfRange | exactly where this word is the first with a fault, and outside its range; or `demo` is to lose more sectors than it makes | answer | then Ok (number_of word) else Err OutOfRange ;; then Some (refused OutOfRange (plain_at Demo words 3)) else None
Missing | exactly where no word has a fault, and a plain word that is needed isn't there | answer | then Some (refused Missing (length words)) else None
SameName | exactly where nothing else is wrong, and this name is the first that equals an earlier one | answer | fault_in Names verb words i = if repeats_name verb words i then Some SameName else None
""",
    ),
    (
        "Making an error correction file",
        "rs01_create::CreateRefusal",
        {"create": "rs01_create", "create_one": "rs01_create"},
        f"""
NoImage | exactly where the image's name isn't there | IsCreate.answer | Creates image ecc r old new (Err NoImage) = IsRefused image old new NoImage ;; refusal_of None = Some NoImage ;; pub accepted : refusal_of (old image) ≡ None
EmptyImage | exactly where the image has no bytes | IsCreate.answer | Creates image ecc r old new (Err EmptyImage) = IsRefused image old new EmptyImage ;; if size == 0 then Some EmptyImage
TooManySectors | exactly where the image has more than 16,777,215 sectors | IsCreate.answer, IsCreate.many | Creates image ecc r old new (Err (TooManySectors n)) = IsRefused image old new (TooManySectors n) ;; else if nat_lt 16777215 (sectors_of size) then Some (TooManySectors (sectors_of size))
Marker | exactly where this sector, the lowest such, is its own marker | IsCreate.answer | Creates image ecc r old new (Err (Marker s)) = IsRefused image old new (Marker s) ;; first_marked image = find (λ s. bytes_eq (sector image s) (marker s)) (range_with_len 0 (sectors_of (length image)))
ReadFault | {READ} | IsCreate.works | is_read_fault (Err ReadFault) = true ;; {READ_ROSE}
WriteFault | {WRITE}, and the image isn't refused | IsCreate.works, IsCreate.answer | is_write_fault (Err WriteFault) = true ;; {WRITE_ROSE} ;; Creates image ecc r old new (Err WriteFault) = (refusal_of (old image) ≡ None) × LeavesUnder image ecc r old new
OutOfMemory | {FREE} | IsCreate.answer | Creates image ecc r old new (Err OutOfMemory) = LeavesUnder image ecc r old new
""",
    ),
    (
        "Opening an error correction file",
        "rs01_ecchead::EccRefusal",
        {"open_ecc": "rs01_ecchead"},
        f"""
NoFile | exactly where the name isn't there | answer | opened_file None = Err NoFile ;; Opens file (Err why) = IsOfFile why → opened_file file ≡ Err why ;; Opens file (Ok opened) = opened_file file ≡ Ok (opened_as opened (unwrap_or file []))
Head | exactly where the header is refused, for this reason | answer | opened_with (Err why) file = Err (Head why)
Size | exactly where the file is shorter than a header, or its length isn't that of the header's numbers | answer, differ | opened file = if nat_lt (length file) 4096 then Err (Size (length file) 4096) else ;; if not (length file == file_size fields.sectors fields.parity) then Err (Size (length file) (file_size fields.sectors fields.parity))
Body | exactly where the digest of what follows the header isn't the recorded one | answer, differ | else if not (bytes_eq (md5 (drop 4096 file)) fields.body_sum) then Err (Body (md5 (drop 4096 file)) fields.body_sum)
ReadFault | {READ} | reads | is_read_fault (Err ReadFault) = true ;; {READS_ROSE}
OutOfMemory | {FREE} | answer | IsOfFile OutOfMemory = ⊥
""",
    ),
    (
        "Reading a header",
        "rs01_ecchead::HeadRefusal",
        {"read_head": "rs01_ecchead"},
        """
Cookie | exactly where the cookie is another | MatchResult | if not cookie then Err Cookie
Method | exactly where the method is another, and nothing above fits | MatchResult | else if not method then Err Method
Version | exactly where the needed version is above 1, and nothing above fits | MatchResult | else if nat_lt 1 needed then Err Version
Sectors | exactly where the sectors are 0 or above 16,777,215, and nothing above fits | MatchResult | else if (sectors == 0) || nat_lt 16777215 sectors then Err Sectors
Parity | exactly where the parity bytes are out of range or don't make 255 with the data bytes, and nothing above fits | MatchResult | else if nat_lt parity 8 || nat_lt 100 parity || not (data_bytes + parity == 255) then Err Parity
LastBytes | exactly where the last bytes are above 2048, and nothing above fits | MatchResult | else if nat_lt 2048 last_bytes then Err LastBytes
""",
    ),
    (
        "Walking over a file",
        "rs01_ecchead::WalkFault",
        {"walk_image": "rs01_ecchead", "read_bytes": "rs01_ecchead", "add_rest": "rs01_ecchead", "read_sums": "rs01_ecchead"},
        f"""
ReadFault | {READ} | OnlyReads | is_walk_fault (Err ReadFault) = true ;; {READS_ROSE}
OutOfMemory | {FREE} | OnlyReads | is_walk_fault (Err OutOfMemory) = false
""",
    ),
    (
        "Checking an image",
        "rs01_verify::VerifyRefusal",
        {"verify": "rs01_verify"},
        f"""
NoFile | exactly where the error correction file isn't there, or it is to be opened and the image isn't there | answer | refusal_of ecc.NoFile = NoFile which.Ecc ;; answer_with (Ok c) None = Err (NoFile which.Image) ;; IsAnswerOf ecc image (Err why) = IsOfFiles why → verify_answer ecc image ≡ Err why ;; IsAnswerOf ecc image (Ok report) = verify_answer ecc image ≡ Ok report
Head | exactly where opening is refused so | answer | refusal_of (ecc.Head why) = Head why
Size | exactly where opening is refused so | answer, differ | refusal_of (ecc.Size have want) = Size have want
Body | exactly where opening is refused so | answer, differ | refusal_of (ecc.Body have want) = Body have want
ReadFault | {READ} | reads | is_read_fault (Err ReadFault) = true ;; {READS_ROSE}
OutOfMemory | {FREE} | answer | IsOfFiles OutOfMemory = ⊥
""",
    ),
    (
        "Repairing an image",
        "rs01_fix::FixRefusal",
        {"fix": "rs01_fix", "fix_one": "rs01_fix"},
        f"""
NoFile | exactly where the error correction file isn't there, or it is to be opened and the image isn't there | IsFix.answer | refusal_of ecc.NoFile = NoFile which.Ecc ;; answer_with (Ok c) None cut = Err (NoFile which.Image) ;; pub refused : IsOfFiles why → fix_answer (old ecc) (old image) cut ≡ Err why ;; Fixes image ecc cut old new (Ok told) = IsOkAnd (fix_answer (old ecc) (old image) cut) (Repairs image old new told)
Head | exactly where opening is refused so | IsFix.answer | refusal_of (ecc.Head why) = Head why
Size | exactly where opening is refused so | IsFix.answer, IsFix.differ | refusal_of (ecc.Size have want) = Size have want
Body | exactly where opening is refused so | IsFix.answer, IsFix.differ | refusal_of (ecc.Body have want) = Body have want
ReadFault | {READ} | IsFix.works | reads_badly ReadFault = true ;; {READ_ROSE}
WriteFault | {WRITE}, and the files don't forbid the repair | IsFix.works, IsFix.write_fault_last | writes_badly WriteFault = true ;; {WRITE_ROSE}
OutOfMemory | {FREE} | IsFix.answer | pub left : MayStand (fix_answer (old ecc) (old image) cut) (old image) (new image)
""",
    ),
    (
        "Reading and scanning a medium",
        "rs01_linear::ReadRefusal",
        {"read_linear": "rs01_linear", "read_adaptive": "rs01_adaptive", "read_adaptive_one": "rs01_adaptive", "scan": "rs01_verify"},
        f"""
Ecc | exactly where a file is given and opening it is refused so; never a fault or want of memory | read_linear: told, answers, causes, untouched; read_adaptive: told, answers, causes, untouched; read_adaptive_one: told, answers, causes, untouched; scan: answer, answers, causes | found_in_file (Err why) number = Err (refusal.Ecc why) ;; AnswersFile desk ecc (Err (refusal.Ecc why)) = IsTrue desk.tells → IsSomeAnd (file_given desk ecc) (λ given. opened_file given ≡ Err why) ;; AnswersFile desk ecc answer = IsTrue desk.tells → ForSome (file_given desk ecc) (λ given. IsOk (opened_file given)) ;; TellsFaults (Ecc why) = IsToldOfFile why ;; IsOfReading (Ecc why) = IsToldOfFile why
Rack | exactly where the drives give no number of sectors, and the file that may be given is to be opened | read_linear: told, refused, answers; read_adaptive: told, refused, answers; read_adaptive_one: told, refused, answers; scan: answer, asked, answers | found_in_drives (Err why) = Err (refusal.Rack why) ;; found_in_file (Ok c) (Err why) = Err (refusal.Rack why) ;; RefusesBy (Err (Rack why)) old new = GivesNumber (Err why) old new × HasCause (Err why) old new
DriveSize | exactly where no file is given, and the drives' number is 0 or above 16,777,215 | read_linear: told, refused, answers; read_adaptive: told, refused, answers; read_adaptive_one: told, refused, answers; scan: answer, asked, answers | if (n == 0) || nat_lt 16777215 n then Err (refusal.DriveSize n) ;; RefusesBy (Err (DriveSize n)) old new = GivesNumber (Ok n) old new × IsUnfit n ;; RefusesSizeAlone ecc (DriveSize n) = ecc ≡ None
ReadFault | {READ} | read_linear: works; read_adaptive: works; read_adaptive_one: works; scan: reads | reads_badly ReadFault = true ;; {READ_ROSE} ;; {READS_ROSE}
WriteFault | {WRITE}, and the medium isn't refused; never of a scan | read_linear: works, told; read_adaptive: works, told; read_adaptive_one: works, told; scan: causes | writes_badly WriteFault = true ;; {WRITE_ROSE} ;; pub write_fault_last : IsTrue (writes_badly why) → IsOk (found given (views_of old)) ;; IsOfReading WriteFault = ⊥
OutOfMemory | {FREE} | read_linear: told; read_adaptive: told; read_adaptive_one: told; scan: answer | IsOfMedium OutOfMemory = ⊥ ;; pub left : IsUntouched old new before file ⊎ IsOkAnd (found given (views_of old)) IsLeft
""",
    ),
    (
        "The drives' number of sectors",
        "rs01_rack::RackRefusal",
        {"sectors": "rs01_rack"},
        """
NoDrive | exactly where there is no drive | asked, told | agreed [] = Err refusal.NoDrive ;; EndsAs answer numbers old new = (length numbers ≡ length old) × (answer ≡ agreed numbers)
Failed | only where this drive's count of faults rose in this call; where all tell, exactly for the first drive whose size call fails | asked, cause, told | HasCause (Err (refusal.Failed place)) old new = AtDrive old.drives new.drives place FaultsRose ;; number_unless (Some place) views = Err (refusal.Failed place)
Differ | exactly where no drive's size call fails and two numbers differ | asked, told | agreed_on number (Some other) = Err (refusal.Differ number other)
""",
    ),
    (
        "A sector of some drives",
        "rs01_rack::AllFailed",
        {"read_from": "rs01_rack"},
        """
AllFailed | only where the count of each drive from the first one asked on rose in this call | cause, asked | AllRose first old new = (k : ℕ) → first ≤ k → AtDrive old.drives new.drives k FaultsRose
""",
    ),
    (
        "A sector of a medium",
        "rs01_linear::Asked",
        {"ask_sector": "rs01_linear"},
        """
Read | where all tell, exactly where a drive answered with a block that may stand for the sector | asked | kind_of asking = if is_some asking.read then Read else if asking.answered then Altered else Unreadable
Unreadable | only where the count of each drive rose in this call; where all tell, exactly where none answered | cause, asked | pub answer : asked ≡ kind_of asking
Altered | where all tell, exactly where a drive answered, and none with a block that may stand for the sector | asked | pub told : AllTell new → ComesTo (ask_drives known s tries (views_of old)) block asked (views_of new)
""",
    ),
    (
        "Showing a repair",
        "rs01_demo::DemoRefusal",
        {"demo": "rs01_demo", "demo_one": "rs01_demo"},
        f"""
Create | only for a fault or want of memory while the file is made, since no image that is made is refused | IsDemo.works, IsDemo.answer | IsFault (Create why) = IsOfMaking why ;; NoneIsRefused = (plan : Plan) → IsInRange plan → refusal_of (Some (original plan)) ≡ None
Fix | only for a fault or want of memory while the image is repaired | IsDemo.works, IsDemo.answer | IsFault (Fix why) = fix.IsOfRepair why
ReadFault | {READ} | IsDemo.works | reads_badly ReadFault = true ;; pub read_rose : IsTrue read_failed → Rose old.read_faults new.read_faults
WriteFault | {WRITE} | IsDemo.works | writes_badly WriteFault = true ;; pub write_rose : IsTrue write_failed → Rose old.write_faults new.write_faults
OutOfMemory | {FREE} | IsDemo.answer | Demos plan image ecc old new (Err why) = Stops plan image ecc old new why
""",
    ),
    (
        "Putting a report or a line",
        "rs01_report::PutRefusal",
        {f"put_{name}": "rs01_report" for name in ("create", "fix", "verify", "scan", "read", "demo", "fault")},
        f"""
SinkFault | only where the output's count of faults rose in this call | PutsText | is_sink_fault (Err SinkFault) = true ;; rs01_outside: pub rose : IsTrue failed → Rose old.faults new.faults
OutOfMemory | {FREE}; nothing was put | PutsText | put_of (Err OutOfMemory) bytes = []
""",
    ),
    (
        "The numbers of a shape",
        "rs01_layers::ShapeRefusal",
        {"new": "rs01_layers"},
        """
NoSectors | exactly where there is no sector | no_sectors | ensures no_sectors { (result ≡ Err ShapeRefusal.NoSectors) ↔ (sectors ≡ 0) }
TooManySectors | exactly where there are more than 16,777,215 | too_many | ensures too_many { (result ≡ Err ShapeRefusal.TooManySectors) ↔ (16777215 < sectors) }
ParityRange | exactly where the sectors are in range and the parity bytes aren't | parity_range | ((1 ≤ sectors) × (sectors ≤ 16777215) × ((parity < 8) ⊎ (100 < parity)))
""",
    ),
    (
        "Restoring a codeword",
        "rs01_erase::EraseRefusal",
        {"restore_codeword": "rs01_erase"},
        """
Beyond | exactly where more places are erased than there are parity bytes | beyond | Many places r n = (r < length places) × (n ≡ length places)
Inconsistent | exactly where no more are, and no codeword has the word's bytes at the others | inconsistent | Clash word places r = (length places ≤ r) × (completion word places r ≡ None)
""",
    ),
    (
        "A pattern of erased places",
        "rs01_erase::PatternRefusal",
        {"new": "rs01_erase"},
        f"""
Beyond | exactly where more places are erased than there are parity bytes | beyond | Many places r n = (r < length places) × (n ≡ length places)
OutOfMemory | {FREE} | beyond | ensures made {{ IfOk result (λ p. p ≡ record {{ places = erased.now; parity_count = r }}) }}
""",
    ),
    (
        "What correcting gives of a layer",
        "rs01_layers::LayerOut",
        {"work": "rs01_layers"},
        """
Beyond | exactly where more places are erased than there are parity bytes | IfOk | rs01_erase: if nat_lt r (length (erased_places flags)) then Beyond (length (erased_places flags)) else
Inconsistent | exactly where this codeword, the lowest such, has no completion, and nothing above fits | IfOk | rs01_erase: option_map_or (λ b. Inconsistent b) (first_inconsistent blocks flags parity r)
BadSum | exactly where the block restored at this place, the lowest such, has another checksum, and nothing above fits | IfOk | rs01_erase: (option_map_or (λ p. BadSum p) (first_bad_sum blocks flags sums parity r)
Restored | exactly where nothing above fits | IfOk | rs01_erase: (Restored (placed (restored_block blocks flags parity r) (erased_places flags)))
Parity | of encoding alone | IfOk | rs01_encode: ghost value = { encoded };
""",
    ),
    (
        "Working windows of layers",
        "rs01_workers::WindowStop",
        {"work_window": "rs01_workers", "work_one": "rs01_workers", "work_all": "rs01_workers", "work_all_one": "rs01_workers"},
        f"""
Stopped | exactly where the filler answered this stop in this call | stands | Stands going done halted filler (Stopped stop) = halted filler stop
OutOfMemory | {FREE} | stands | Stands going done halted filler OutOfMemory = going filler ⊎ done filler
""",
    ),
    (
        "The next layer of a reading by turns",
        "rs01_reader::Stop",
        {"next_input": "rs01_reader"},
        f"""
ReadFault | {READ} | Gives | stops_reading ReadFault = true ;; Halted m ReadFault = Rose m.kept_reads m.desk.read_faults
WriteFault | {WRITE} | Gives | stops_writing WriteFault = true ;; Halted m WriteFault = Rose m.kept_writes m.desk.write_faults
OutOfMemory | {FREE} | Gives | Halted m OutOfMemory = Unit {{0}}
""",
    ),
    (
        "Posting an input",
        "rs01_window::PostRefusal",
        {"post": "rs01_table"},
        """
Closed | exactly where the poster closed the window | err | pub why : ((refused.why ≡ Closed) × (is_closed before ≡ true)) ;; rs01_window: post m input = if m.closed then refused m Closed input else
Full | exactly where it didn't, and an input is posted for each slot | err | ⊎ ((refused.why ≡ Full) × (is_closed before ≡ false) × (slots ≤ length (posted_by before))) ;; rs01_window: else refused m Full input
""",
    ),
    (
        "Looking for an input",
        "rs01_table::Taken",
        {"try_take": "rs01_table"},
        """
Got | exactly where the word that this call read says that the input is posted | found | Found fit worker ticket (Got input) = fit input × HasInput worker ticket input × (ticket < worker.seat.me.0.seen)
NotYet | exactly where that word says that it isn't posted, and the window not closed | found | Found fit worker ticket NotYet = HasTicket worker ticket × SawUnposted worker ticket false
Over | exactly where that word says that it isn't posted, and the window closed | found | Found fit worker ticket Over = SawEnd worker ticket
""",
    ),
    (
        "What comes back at the end of a window",
        "rs01_table::Given",
        {"end": "rs01_table"},
        """
Done | exactly where a worker gave the task's value for this slot | EndedBy | pub back : (j : ℕ) (g : Gave) → slice_get given j ≡ Some g → slice_get results g.ticket ≡ Some g.what
Left | exactly where no worker gave a value for this slot | EndedBy | → slice_get results k ≡ Some (Left input)
""",
    ),
    (
        "An event of the window's machine",
        "rs01_window::StepRefused",
        {"step": "rs01_window"},
        """
Post | exactly where an input is to be posted in a window that is closed or full | answer | refused m why input = (m, Err (NotPosted record { why = why; input = input }))
Illegal | exactly where the worker can't do this now, or there is none with this number | answer | illegal m event = (m, Err (Illegal event))
""",
    ),
    (
        "A look in the window's machine",
        "rs01_window::TakeSeen",
        {"take": "rs01_window"},
        """
Got | exactly where the input is posted | answer | look m w t = if nat_lt t (length m.posted) then (with_status m w (Holds t), Ok (Took Got)) else
NotYet | exactly where it isn't posted, and the window not closed | answer | else (m, Ok (Took NotYet))
Over | exactly where it isn't posted, and the window closed | answer | if m.closed then (with_status m w Over, Ok (Took SawEnd))
""",
    ),
]

# Where a call gives nothing. Each row names its own call.
NONES = """
rs01_layers::sector_at | exactly where the place lies behind the last sector | result ≡ sector_at | sector_at n r layer place =
rs01_intervals::longest | exactly where no flag is set | value | NoneMeansClear : Type 0
rs01_states::first_unread_from | exactly where no sector from this one on is unread | first | next_unread states from = find (λ s. is_unread (state_of states s)) (range_with_len from (length states - from))
rs01_states::mark_good | exactly where the sector's layer doesn't come within its bound by it | came | if is_within shape l after && not (is_within shape l before) then Some l else None
rs01_window::taken | exactly where the worker has no input | taken, some | input_of m w = input_at m (slice_get m.workers w)
rs01_window::result | exactly where nothing was given for the slot | given, all | given_for m slot = given_in (slice_get m.results slot)
rs01_table::take | exactly where the word that this call read last says that the input isn't posted, and the window closed | over, got | × SawUnposted worker ticket true
rs01_rack::asked_at | where the drive tells, exactly where it was asked for fewer sectors; always where it doesn't tell | OfDrive | pub told : IsTrue drive.tells → sector ≡ slice_get drive.view.asked i ;; pub untold : IsTrue (not drive.tells) → IsNone sector
rs01_words::get | exactly where there are no more places | result ≡ slice_get | ghost Value = { List ℕ };
rs01_fakes::file | exactly where the name isn't there | option_copied result ≡ files_of | option_copied result ≡ files_of self.now name.now
rs01_outside::size | where the desk tells, exactly where the name isn't there | size | SizeIs files name size = size ≡ option_map length (files name)
"""

# What a report tells of a medium.
REPORT_CALLS = {"read_linear": "rs01_linear", "read_adaptive": "rs01_adaptive", "read_adaptive_one": "rs01_adaptive", "scan": "rs01_verify"}
REPORTED = """
unreadable | where all tell, exactly the sectors for which no drive answered when they were asked for; always, each drive's count rose by at least the number of these sectors, or stands at its last value | read_linear: unreadable, told; read_adaptive: unreadable, told; read_adaptive_one: unreadable, told; scan: asked, answer | UnreadableRose (Ok told) old new = AllRoseBy (length told.unreadable) old new ;; unreadable = sectors_told fates told.Unreadable; ;; rs01_verify: HasScanCause (Ok report) old new = AllRoseBy (length report.unreadable) old new ;; rs01_verify: unreadable = filter (λ s. is_unreadable (asked_at found.known views s)) (range_with_len 0 found.known.sectors);
"""

# Each enum with such a name is to have a table.
NEEDED = re.compile(r"pub enum (\w*(?:Refusal|Refused|Fault|Stop))\b")


class Wrong(Exception):
    pass


def squeezed(text):
    return " ".join(text.split())


@functools.lru_cache(maxsize=None)
def files_of(crate, folder, ending):
    found = {}
    for path in sorted(glob.glob(os.path.join(TOP, "crates", crate, folder, "**", "*" + ending), recursive=True)):
        with open(path, encoding="utf-8") as it:
            found[os.path.relpath(path, os.path.join(TOP, "crates", crate))] = it.read()
    if not found:
        raise Wrong(f"no {folder} of {crate}")
    return found


@functools.lru_cache(maxsize=None)
def code_of(crate):
    """The sources of a crate but for its tests."""
    return {name: text for name, text in files_of(crate, "src", ".rt").items() if "tests" not in name}


@functools.lru_cache(maxsize=None)
def stood_on():
    """The crates that the program stands on."""
    rows = {}
    with open(os.path.join(TOP, "crates.txt"), encoding="utf-8") as it:
        for line in it:
            name, found, rest = line.partition(":")
            if found and not line.startswith("#"):
                rows.setdefault(name.strip(), []).extend(rest.split())
    reached, left = [], [PROGRAM]
    while left:
        name = left.pop()
        if name in rows and name not in reached:
            reached.append(name)
            left += rows[name]
    return sorted(reached)


@functools.lru_cache(maxsize=None)
def line_at(crate, line):
    """The file that has a line of a definition or of a contract."""
    wanted = squeezed(line)
    for folder, ending in (("specs", ".antt"), ("src", ".rt")):
        try:
            files = files_of(crate, folder, ending)
        except Wrong:
            continue
        for name, text in files.items():
            if wanted in squeezed(text):
                return name
    raise Wrong(f"{crate} has no line: {line}")


@functools.lru_cache(maxsize=None)
def contracts_of(crate, call):
    """The heads of the functions with this name, from the name to the body."""
    pattern = re.compile(rf"\bfn {call}\b.*?(?:\n\s*\{{\n|;\n)", re.S)
    found = [it.group() for text in code_of(crate).values() for it in pattern.finditer(text)]
    if not found:
        raise Wrong(f"{crate} has no function {call}")
    return found


def check_clause(crate, call, clause):
    relation, _, part = clause.partition(".")
    # A clause without a name is told by a relation that it cites, or by some words of it.
    is_name = relation[0].islower() and " " not in relation
    word = rf"ensures {relation} \{{" if is_name else rf"\b{re.escape(relation)}\b"
    if not any(re.search(word, squeezed(it)) for it in contracts_of(crate, call)):
        raise Wrong(f"{call} of {crate} has no clause {relation}")
    if part:
        specs = "\n".join(files_of(crate, "specs", ".antt").values())
        record = re.search(rf"record {relation} .*?(?=\n\S|\Z)", specs, re.S)
        if not record or not re.search(rf"\bpub {part} :", record.group()):
            raise Wrong(f"{relation} of {crate} has no part {part}")


def variants_of(crate, name):
    for text in code_of(crate).values():
        found = re.search(rf"pub enum {name}\b[^{{]*\{{(.*?)\n\}}", text, re.S)
        if found:
            return re.findall(r"^    (\w+)", re.sub(r"\([^()]*\)|\{[^{}]*\}", "", found.group(1)), re.M)
        if re.search(rf"pub struct {name};", text):
            return [name]
    raise Wrong(f"{crate} has no {name}")


def cell(text):
    return text.replace("|", "\\|")


def coded(text):
    return f"`{cell(text)}`"


def clauses_in(text, calls):
    """The clauses of a row, each call's own, checked; and how they are printed."""
    told = []
    for group in text.split("; "):
        call, found, rest = group.partition(": ")
        names = rest if found else group
        for one in [call] if found else calls:
            for clause in names.split(", "):
                check_clause(calls[one], one, clause.strip())
        clauses = ", ".join(coded(it.strip()) for it in names.split(", "))
        told.append(f"{coded(call)}: {clauses}" if found else clauses)
    return "; ".join(told)


def lines_in(text, crate):
    told = []
    for line in text.split(" ;; "):
        found = re.match(r"(rs01_\w+|dvdisaster_rs01): (.*)", line.strip(), re.S)
        owner, line = (found.group(1), found.group(2)) if found else (crate, line.strip())
        name = line_at(owner, line)
        where = name if owner == crate else f"{owner} {name}"
        told.append(f"{where}: {coded(squeezed(line))}")
    return "<br>".join(told)


def row_of(row, calls, crate):
    answer, comes, clauses, lines = (it.strip() for it in re.split(r" \| ", row, maxsplit=3))
    return answer, f"| {coded(answer)} | {comes} | {clauses_in(clauses, calls)} | {lines_in(lines, crate)} |"


def rows_in(text, calls, crate):
    rows = [row_of(row, calls, crate) for row in text.strip().split("\n")]
    return [it for it, _ in rows], [it for _, it in rows]


def nones():
    """A row for each call that may give nothing."""
    rows = []
    for row in NONES.strip().split("\n"):
        name, rest = row.split(" | ", 1)
        crate, call = name.split("::")
        rows.append(row_of(f"{name} | {rest}", {call: crate}, crate)[1])
    intro = ["## Where a call gives `None`", "", COLUMNS[0].replace("Answer", "Call"), COLUMNS[1]]
    return [*intro, *rows, ""]


def reported():
    """A row for what a report tells of a medium."""
    rows = rows_in(REPORTED, REPORT_CALLS, "rs01_linear")[1]
    columns = [COLUMNS[0].replace("Answer", "Told"), COLUMNS[1]]
    return ["## What a report tells of a medium", "", calls_line(REPORT_CALLS), "", *columns, *rows, ""]


def calls_line(calls):
    return "Calls: " + ", ".join(f"{coded(name)} of {coded(crate)}" for name, crate in calls.items()) + "."


COLUMNS = ["| Answer | Comes | Clause | Where it is said |", "|---|---|---|---|"]


def statuses():
    answers, rows = rows_in(STATUSES, STATUS_CALLS, "rs01_top")
    numbers = re.findall(r"^number_of status\.\w+ = (\d)$", files_of("rs01_report", "specs", ".antt")["specs/Faults.antt"], re.M)
    if answers != numbers:
        raise Wrong(f"the statuses are {numbers}, and rows are there for {answers}")
    line_at(PROGRAM, "const NO_WORDS: u8 = 8;")
    rows.append("| `8` | where the program's words can't be had | none: it comes from the program before `run`, and is tested | " + PROGRAM + " src/main.rt: `const NO_WORDS: u8 = 8;` |")
    return ["## The statuses of the program", "", calls_line(STATUS_CALLS), "", *COLUMNS, *rows, ""]


def text_of(definition):
    """The text of a line, by its definition: texts as they are, and values in capitals."""
    told = ""
    for text, value in re.findall(r'codes "([^"]*)"|(?:decimal|encode_lower) (\w+)', definition):
        told += text or value.upper()
    return told


def fault_lines():
    """A row for each fault: its line, its status, and the answers that it is told for."""
    specs = files_of("rs01_report", "specs", ".antt")["specs/Faults.antt"]
    lines = dict(re.findall(r"^fault_line \(?fault\.(\w+)[^=]*=\s*(.*?)(?=\nfault_line|\n\n)", specs, re.M | re.S))
    numbers = dict(re.findall(r"^status_of \(?fault\.(\w+)[^=]*= (\d)", specs, re.M))
    told = {}
    names = {}
    for crate in stood_on():
        for text in code_of(crate).values():
            for name in re.findall(r"pub enum (\w+)", text):
                names[name] = crate
    faults = files_of("rs01_top", "specs", ".antt")["specs/Faults.antt"]
    alias = dict(re.findall(r"use Rattle\.\w+\.specs\.declared\.\w+\.(\w+)\.TheVariants as (\w+)", faults))
    alias = {short: name for name, short in alias.items()}
    for short, variant, fault in re.findall(r"^\w+_(?:fault|at) \(?(\w+)\.(\w+)[^=]*= fault\.(\w+)", faults, re.M):
        answer = f"NoFile({variant})" if alias[short] == "Which" else f"{alias[short]}::{variant}"
        told.setdefault(fault, []).append(answer)
    rows = []
    for fault in variants_of("rs01_report", "Fault"):
        if fault not in lines or fault not in numbers:
            raise Wrong(f"the fault {fault} has no line or no status")
        text = text_of(lines[fault])
        if lines[fault].startswith("word_line"):
            text = "rs01: word PLACE" + text
        causes = told.get(fault)
        if causes:
            causes = ", ".join(coded(it) for it in causes)
        else:
            specs_of_top = files_of("rs01_top", "specs", ".antt").items()
            causes = [(name, line) for name, text_ in specs_of_top for line in text_.split("\n") if f"no_work fault.{fault}" in line]
            if not causes:
                raise Wrong(f"no answer is told as the fault {fault}")
            causes = "no engine's: " + "<br>".join(f"rs01_top {name}: {coded(squeezed(line))}" for name, line in causes)
        rows.append(f"| {coded(text)} | {coded(fault)} | {numbers[fault]} | {causes} |")
    intro = [
        "## The fault lines of the program",
        "",
        "A run that a fault ends puts its line and has its status: `IsRun.only_refused`, `IsRun.refused` and `IsRun.cause` of",
        "`run` and `run_one`. It is told for these answers, which have their rows below.",
        "",
        "| Line | Fault | Status | Told for |",
        "|---|---|---|---|",
    ]
    return [*intro, *rows, ""]


def page():
    parts = [HEAD, *statuses(), *fault_lines()]
    seen = {"rs01_report::Fault"}
    for title, name, calls, rows in TABLES:
        crate, short = name.split("::")
        # Lines are of the crate of the first call, where a row doesn't name another.
        answers, printed = rows_in(rows, calls, next(iter(calls.values())))
        variants = variants_of(crate, short)
        if sorted(answers) != sorted(variants):
            raise Wrong(f"{name} has the variants {variants}, and rows are there for {answers}")
        seen.add(name)
        parts += [f"## {title}: `{short}`", "", calls_line(calls), "", *COLUMNS, *printed, ""]
    for crate in stood_on():
        for text in code_of(crate).values():
            for short in NEEDED.findall(text):
                if f"{crate}::{short}" not in seen:
                    raise Wrong(f"{crate}::{short} has no table")
    parts += reported()
    parts += nones()
    return "\n".join(parts)


def main(words):
    if words not in ([], ["--check"]):
        print(__doc__.split("\n\n")[1], file=sys.stderr)
        return 2
    try:
        text = page()
    except Wrong as wrong:
        print(f"docs/answers.py: {wrong}", file=sys.stderr)
        return 1
    if not words:
        with open(PAGE, "w", encoding="utf-8") as it:
            it.write(text)
        return 0
    there = ""
    if os.path.exists(PAGE):
        with open(PAGE, encoding="utf-8") as it:
            there = it.read()
    if there != text:
        print("docs/ANSWERS.md isn't what docs/answers.py writes: run it", file=sys.stderr)
        return 1
    return 0


if __name__ == "__main__":
    sys.exit(main(sys.argv[1:]))
