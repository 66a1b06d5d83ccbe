//! Prints the layout of each struct, as c/tests/layout.c prints that of sms.h.

fn main() {
    for line in sms::raw::layout() {
        println!("{line}");
    }
}
