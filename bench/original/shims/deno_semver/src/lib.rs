//! Names of packages with versions.
pub use semver::Version;

pub mod package {
    use serde::{Deserialize, Serialize};
    use std::fmt;

    use super::Version;

    #[derive(Debug, Clone, PartialEq, Eq, PartialOrd, Ord, Hash, Serialize, Deserialize)]
    #[serde(into = "String", try_from = "String")]
    pub struct PackageNv {
        pub name: String,
        pub version: Version,
    }

    impl fmt::Display for PackageNv {
        fn fmt(&self, out: &mut fmt::Formatter<'_>) -> fmt::Result {
            write!(out, "{}@{}", self.name, self.version)
        }
    }

    impl From<PackageNv> for String {
        fn from(nv: PackageNv) -> Self {
            nv.to_string()
        }
    }

    impl TryFrom<String> for PackageNv {
        type Error = String;

        fn try_from(text: String) -> Result<Self, String> {
            let (name, version) = text.rsplit_once('@').ok_or("no version")?;
            let version = Version::parse(version).map_err(|error| error.to_string())?;
            Ok(PackageNv { name: name.into(), version })
        }
    }
}
