//! The provider of the URLs of packages.
use deno_semver::package::PackageNv;

use crate::ModuleSpecifier;

pub trait JsrUrlProvider {
    fn package_url(&self, nv: &PackageNv) -> ModuleSpecifier;
    fn package_url_to_nv(&self, url: &ModuleSpecifier) -> Option<PackageNv>;
}
