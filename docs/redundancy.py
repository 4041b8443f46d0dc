#!/usr/bin/env python3
"""How much an error correction file takes, and how much it brings back: the table of DISC.md.

redundancy.py [SECTORS] [SHARE]: for an image of so many sectors (2,298,496, a full DVD) the size of the file, the
longest run of lost sectors that comes back, and the share of sectors that may be lost, each by chance and apart from
the others, so that all come back in this share of cases (0.99). All in percent of the image.
"""
import math
import sys

SECTOR = 2048
CODEWORD = 255
HEADER = 4096
PARITIES = (8, 16, 32, 64, 100)


def layers_of(sectors, parity):
    """The number of layers: a layer has as many places as a codeword has data bytes."""
    return -(-sectors // (CODEWORD - parity))


def file_size(sectors, parity):
    """A header, a checksum of four bytes for each sector, and the parity of each layer."""
    return HEADER + 4 * sectors + SECTOR * parity * layers_of(sectors, parity)


def longest_run(sectors, parity):
    """Neighbours lie in layers that follow each other, so a run takes from each layer in turn."""
    return min(sectors, parity * layers_of(sectors, parity))


def whole_share(sectors, parity, lost):
    """How likely it is that no layer loses more than it has parity, where each sector is lost with this likelihood."""
    layers = layers_of(sectors, parity)
    full = sectors // layers
    longer = sectors - full * layers
    share = 0.0
    for places, count in ((full + 1, longer), (full, layers - longer)):
        if count:
            beyond = sum(
                math.exp(
                    math.lgamma(places + 1) - math.lgamma(n + 1) - math.lgamma(places - n + 1)
                    + n * math.log(lost) + (places - n) * math.log1p(-lost)
                )
                for n in range(parity + 1, places + 1)
            )
            share += count * math.log1p(-min(beyond, 1 - 1e-15))
    return math.exp(share)


def most_lost(sectors, parity, share):
    """The largest such likelihood with which all come back in this share of cases, by halving."""
    low, high = 1e-6, 0.999
    for _ in range(60):
        middle = (low + high) / 2
        if whole_share(sectors, parity, middle) >= share:
            low = middle
        else:
            high = middle
    return low


def main():
    try:
        sectors = int(sys.argv[1]) if len(sys.argv) > 1 else 2_298_496
        share = float(sys.argv[2]) if len(sys.argv) > 2 else 0.99
    except ValueError:
        sys.exit("usage: redundancy.py [SECTORS [SHARE]]")
    print("| `--parity` | file takes | may be lost in one run | by chance |")
    print("|---|---|---|---|")
    for parity in PARITIES:
        takes = 100 * file_size(sectors, parity) / (SECTOR * sectors)
        run = 100 * longest_run(sectors, parity) / sectors
        lost = 100 * most_lost(sectors, parity, share)
        print(f"| {parity} | {takes:.1f} % | {run:.1f} % | {lost:.1f} % |")


if __name__ == "__main__":
    main()
