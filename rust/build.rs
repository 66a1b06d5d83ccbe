//! Tells rustc where libsms is: in SMS_LIB_DIR, where that is set, else where pkg-config says (PKG_CONFIG names it), else
//! where the linker looks. With SMS_STATIC set, libsms.a is linked into the program.

use std::env;
use std::path::Path;
use std::process::Command;

const HEEDED: [&str; 5] = ["SMS_LIB_DIR", "SMS_STATIC", "PKG_CONFIG", "PKG_CONFIG_PATH", "PKG_CONFIG_LIBDIR"];
const USUAL: [&str; 4] = ["/usr/local/lib", "/usr/lib/x86_64-linux-gnu", "/usr/lib64", "/usr/lib"];

fn main() {
    for name in HEEDED {
        println!("cargo:rerun-if-env-changed={name}");
    }
    let (kind, file) = match env::var_os("SMS_STATIC") {
        Some(_) => ("static", "libsms.a"),
        None => ("dylib", "libsms.so"),
    };
    let told = env::var("SMS_LIB_DIR").ok().or_else(dir_by_pkg_config);
    if !told.iter().map(String::as_str).chain(USUAL).any(|dir| Path::new(dir).join(file).exists()) {
        println!("cargo:warning={file} is not found, so no program will link: install libsms-dev (docs/C.md has how it");
        println!("cargo:warning=is made), or name its folder by SMS_LIB_DIR, or that of sms.pc by PKG_CONFIG_PATH");
    }
    println!("cargo:rustc-link-lib={kind}=sms");
    if let Some(dir) = told {
        println!("cargo:rustc-link-search=native={dir}");
        // Tests and examples of this crate find the library there. What depends on the crate has it as DEP_SMS_LIBDIR.
        println!("cargo:rustc-link-arg=-Wl,-rpath,{dir}");
        println!("cargo:libdir={dir}");
    }
}

/// The folder by the host's pkg-config, which knows no other machine's.
fn dir_by_pkg_config() -> Option<String> {
    let tool = env::var("PKG_CONFIG").ok();
    if tool.is_none() && env::var("HOST") != env::var("TARGET") {
        return None;
    }
    let ran = Command::new(tool.as_deref().unwrap_or("pkg-config")).args(["--variable=libdir", "sms"]).output().ok()?;
    let dir = String::from_utf8(ran.stdout).ok()?.trim().replace('\\', "");
    (ran.status.success() && !dir.is_empty()).then_some(dir)
}
