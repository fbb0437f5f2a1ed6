"""Hash trees of dm-verity (hash type 1, SHA-256, blocks of 4,096 bytes), by hashlib."""
import hashlib
import hmac
import struct
import uuid

from lib.gpt import guid_of

BLOCK = 4096


def salt_of(seed, kind):
    """The salt that a seed has for data of this type, after a seed written as the option is."""
    return hmac.new(uuid.UUID(seed.replace("--seed=", "")).bytes, b"verity-salt" + uuid.UUID(guid_of(kind)).bytes, "sha256").digest()


def level_over(digests):
    """The blocks of 128 digests each."""
    return [b"".join(digests[at:at + 128]).ljust(BLOCK, b"\0") for at in range(0, len(digests), 128)]


def digest(salt, block):
    return hashlib.sha256(salt + block).digest()


def tree_over(digests, salt):
    """The root hash over the digests of data blocks, and the hash blocks, the topmost first."""
    tree = []
    while len(digests) > 1:
        level = level_over(digests)
        tree = level + tree
        digests = [digest(salt, block) for block in level]
    return digests[0], tree


def partition_over(data, salt, ident):
    """The root hash over whole blocks, and the bytes of the hash partition."""
    root, tree = tree_over([digest(salt, data[at:at + BLOCK]) for at in range(0, len(data), BLOCK)], salt)
    superblock = struct.pack("<8sII16s32sIIQH6x256s", b"verity", 1, 1, ident.bytes, b"sha256", BLOCK, BLOCK, len(data) // BLOCK, len(salt), salt)
    return root, superblock.ljust(BLOCK, b"\0") + b"".join(tree)
