"""The realm initial measurement (RIM): its first value, and its extensions."""
from __future__ import annotations

from hashlib import sha256, sha512

from .machine import Realm
from .pages import REALM_PARAMS, REC_PARAMS, all_of, one_of, page_of

HASHES = (sha256, sha512)
DATA_TYPE, REC_TYPE, RIPAS_TYPE = range(3)
DIGEST, EXTENSION = 64, 256
MEASURED_OF_REALM = ("flags", "s2sz", "sve_vl", "num_bps", "num_wps", "pmu_num_ctrs", "hash_algo")


def digest(hash_algo: int, content: bytes) -> bytes:
    """A hash in 64 bytes; the rest are 0."""
    return HASHES[hash_algo](content).digest().ljust(DIGEST, b"\0")


def rim_of(realm: Realm) -> bytes:
    """The RIM without the zeros after it."""
    return realm.rim[: HASHES[realm.hash_algo]().digest_size]


def number(value: int) -> bytes:
    return value.to_bytes(8, "little")


def first_rim(params: bytes) -> bytes:
    """The RIM of a realm that was made with a page of parameters."""
    measured = {name: one_of(params, REALM_PARAMS[name]) for name in MEASURED_OF_REALM}
    return digest(measured["hash_algo"], page_of(REALM_PARAMS, measured))


def extend(realm: Realm, kind: int, content: bytes) -> None:
    head = number(kind) + number(EXTENSION) + realm.rim
    realm.rim = digest(realm.hash_algo, (head + content).ljust(EXTENSION, b"\0"))


def extend_by_data(realm: Realm, ipa: int, flags: int, page: bytes) -> None:
    content = digest(realm.hash_algo, page) if flags & 1 else bytes(DIGEST)
    extend(realm, DATA_TYPE, number(ipa) + number(flags) + content)


def extend_by_rec(realm: Realm, params: bytes) -> None:
    measured = {name: all_of(params, REC_PARAMS[name]) for name in ("flags", "pc", "gprs")}
    extend(realm, REC_TYPE, digest(realm.hash_algo, page_of(REC_PARAMS, measured)))


def extend_by_ripas(realm: Realm, base: int, top: int) -> None:
    extend(realm, RIPAS_TYPE, number(base) + number(top))
