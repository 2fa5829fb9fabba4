//! Certificates for tests.
use openssl::asn1::Asn1Time;
use openssl::bn::BigNum;
use openssl::ec::{EcGroup, EcKey};
use openssl::hash::MessageDigest;
use openssl::nid::Nid;
use openssl::pkey::{PKey, Private};
use openssl::x509::extension::{BasicConstraints, SubjectAlternativeName};
use openssl::x509::{X509, X509Builder, X509Name, X509NameBuilder};
use std::path::{Path, PathBuf};
use std::sync::atomic::{AtomicU32, Ordering};
use std::time::{SystemTime, UNIX_EPOCH};

const DAY: i64 = 24 * 3600;

/// How many have been certified: each has files of its own.
static COUNT: AtomicU32 = AtomicU32::new(0);

/// An authority that certifies everybody who asks.
#[derive(Debug)]
pub struct Authority {
    certificate: X509,
    key: PKey<Private>,
}

/// A certificate with its key, and the authority that its holder believes.
#[derive(Debug)]
pub struct Files {
    /// The certificate of the authority that the holder believes.
    pub authority: PathBuf,
    /// The holder's certificate.
    pub certificate: PathBuf,
    /// The holder's key.
    pub key: PathBuf,
}

impl Authority {
    /// An authority of this name.
    pub fn new(name: &str) -> Authority {
        let (key, mut builder) = (new_key(), builder(1, 100));
        let name = name_of(name);
        builder.set_subject_name(&name).unwrap();
        builder.set_issuer_name(&name).unwrap();
        builder.set_pubkey(&key).unwrap();
        builder.append_extension(BasicConstraints::new().critical().ca().build().unwrap()).unwrap();
        builder.sign(&key, MessageDigest::sha256()).unwrap();
        Authority { certificate: builder.build(), key }
    }

    /// The files of a holder with these names, which believes this authority. They are valid for this
    /// many days from now on. A name is of the kind URI, or an address after `IP:`.
    pub fn certify(&self, folder: &Path, names: &[&str], days: i64) -> Files {
        self.certify_for(self, folder, names, days)
    }

    /// The same, of one that believes another authority.
    pub fn certify_for(
        &self,
        believed: &Authority,
        folder: &Path,
        names: &[&str],
        days: i64,
    ) -> Files {
        let (key, mut builder) = (new_key(), builder(2, days));
        builder.set_subject_name(&name_of("somebody")).unwrap();
        builder.set_issuer_name(self.certificate.subject_name()).unwrap();
        builder.set_pubkey(&key).unwrap();
        if !names.is_empty() {
            let mut alternative = SubjectAlternativeName::new();
            for name in names {
                match name.strip_prefix("IP:") {
                    Some(address) => alternative.ip(address),
                    None => alternative.uri(name),
                };
            }
            let context = builder.x509v3_context(Some(&self.certificate), None);
            let extension = alternative.build(&context).unwrap();
            builder.append_extension(extension).unwrap();
        }
        builder.sign(&self.key, MessageDigest::sha256()).unwrap();
        let count = COUNT.fetch_add(1, Ordering::Relaxed);
        let path = |kind: &str| folder.join(format!("{count}.{kind}"));
        let files = Files { authority: path("ca"), certificate: path("crt"), key: path("key") };
        let key = key.private_key_to_pem_pkcs8().unwrap();
        std::fs::write(&files.authority, believed.certificate.to_pem().unwrap()).unwrap();
        std::fs::write(&files.certificate, builder.build().to_pem().unwrap()).unwrap();
        std::fs::write(&files.key, key).unwrap();
        files
    }
}

fn builder(serial: u32, days: i64) -> X509Builder {
    let mut builder = X509::builder().unwrap();
    builder.set_version(2).unwrap();
    let serial = BigNum::from_u32(serial).unwrap().to_asn1_integer().unwrap();
    builder.set_serial_number(&serial).unwrap();
    let now = SystemTime::now().duration_since(UNIX_EPOCH).unwrap().as_secs();
    let now = i64::try_from(now).unwrap();
    builder.set_not_before(&Asn1Time::from_unix(now - 10 * DAY).unwrap()).unwrap();
    builder.set_not_after(&Asn1Time::from_unix(now + days * DAY).unwrap()).unwrap();
    builder
}

fn new_key() -> PKey<Private> {
    let group = EcGroup::from_curve_name(Nid::X9_62_PRIME256V1).unwrap();
    PKey::from_ec_key(EcKey::generate(&group).unwrap()).unwrap()
}

fn name_of(name: &str) -> X509Name {
    let mut builder = X509NameBuilder::new().unwrap();
    builder.append_entry_by_text("CN", name).unwrap();
    builder.build()
}
