"""The random words of a run: the generator Pcg64, seeded by a number of 64 bits."""

MASK_32 = (1 << 32) - 1
MASK_64 = (1 << 64) - 1
MASK_128 = (1 << 128) - 1
MULTIPLIER = 0x2360ED051FC65DA44385DF649FCCF645
SEED_MULTIPLIER = 0x5851F42D4C957F2D
SEED_INCREMENT = 0xA17654E46FBE17F3


def rotated(word, turns, bits):
    """A word of this many bits, turned to the right."""
    mask = (1 << bits) - 1
    return (word >> turns | word << (bits - turns)) & mask


def seed_parts(seed):
    """The eight parts of 32 bits to which `seed_from_u64` expands a seed, by a small generator of its own."""
    for _ in range(8):
        seed = (seed * SEED_MULTIPLIER + SEED_INCREMENT) & MASK_64
        yield rotated(((seed >> 18 ^ seed) >> 27) & MASK_32, seed >> 59, 32)


def next_state(state, increment):
    """The state that comes next."""
    return (state * MULTIPLIER + increment) & MASK_128


def random_words(seed):
    """The words of 64 bits of the generator with this seed, one after another."""
    expanded = sum(part << 32 * place for place, part in enumerate(seed_parts(seed)))
    increment = expanded >> 128 | 1
    state = next_state((expanded & MASK_128) + increment, increment)
    while True:
        state = next_state(state, increment)
        yield rotated(state >> 64 ^ state & MASK_64, state >> 122, 64)
