"""The most instructions that some asks over `serve` may take: tests/test_instructions.py counts them, and fails if one takes more.

Each bound is what the proved program took, and 5% more, rounded up to ten. A change that makes an ask cheaper lowers its bound. One that makes it dearer
says why, where it raises the bound. All were raised by 70 when the daemon began to look at how long a client keeps its worker waiting (--idle): each read and
each sending goes through that. Builds without proofs, compared in five of these rows, take 52 to 72 more for it. The other two rows and
the proved program were not measured yet.
"""

MOST = {
    "found REQUEST": 1_970,
    "found, a description of 60 bytes": 2_720,
    "found, with a callout": 2_110,
    "missing REQUEST": 1_700,
    "READ of one byte": 1_770,
    "DESCRIBE": 2_030,
    "ADD displacing": 4_520,
}
