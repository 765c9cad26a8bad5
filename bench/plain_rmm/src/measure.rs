//! Measurements of realms.
use crate::granules::Page;
use crate::objects::Hash;
use crate::sha256::sha256;
use crate::sha512::sha512;

/// An event that extends a measurement.
pub enum Extension {
    Data { ipa: u64, flags: u64, digest: [u8; 64] },
    Rec { digest: [u8; 64] },
    Ripas { base: u64, top: u64 },
}

/// The digest of bytes, with zeros up to 64 bytes.
pub fn digest(hash: Hash, bytes: &[u8]) -> [u8; 64] {
    match hash {
        Hash::Sha256 => {
            let mut padded = [0; 64];
            padded[..32].copy_from_slice(&sha256(bytes));
            padded
        }
        Hash::Sha512 => sha512(bytes),
    }
}

fn put(bytes: &mut [u8], at: usize, word: u64) {
    bytes[at..at + 8].copy_from_slice(&word.to_le_bytes());
}

/// The measurement of a new realm, by those of its parameters that are measured.
pub fn initial(hash: Hash, measured: [u64; 7]) -> [u8; 64] {
    let mut page = [0; 4096];
    for (place, word) in measured.into_iter().enumerate() {
        put(&mut page, 8 * place, word);
    }
    digest(hash, &page)
}

/// The measurement after an extension: a hash of a descriptor that has the one before.
pub fn extend(hash: Hash, rim: &[u8; 64], extension: &Extension) -> [u8; 64] {
    let mut descriptor = [0; 256];
    put(&mut descriptor, 8, 0x100);
    descriptor[16..80].copy_from_slice(rim);
    match extension {
        Extension::Data { ipa, flags, digest } => {
            put(&mut descriptor, 80, *ipa);
            put(&mut descriptor, 88, *flags);
            descriptor[96..160].copy_from_slice(digest);
        }
        Extension::Rec { digest } => {
            put(&mut descriptor, 0, 1);
            descriptor[80..144].copy_from_slice(digest);
        }
        Extension::Ripas { base, top } => {
            put(&mut descriptor, 0, 2);
            put(&mut descriptor, 80, *base);
            put(&mut descriptor, 88, *top);
        }
    }
    digest(hash, &descriptor)
}

/// The digest of those parameters of a REC that are measured: flags, pc and gprs 0 to 7.
pub fn rec_digest(hash: Hash, params: &Page) -> [u8; 64] {
    let mut page = [0; 4096];
    for part in [0..8, 512..520, 768..832] {
        page[part.clone()].copy_from_slice(&params[part]);
    }
    digest(hash, &page)
}
