# Makes plain Rust of library.rt.in: what is timed, over the crate that bindings/rust/generate makes
# of the proved sources.
/^\/\/!/d
/^#!\[tactic/d
/^ *ghost /d
/^#\[derive(Drop)\]/d
/^#\[unsafe(no_mangle)\]/d
s/^use dgt_chess::/use dgt::chess::/
s/^use dgt_[a-z]*::/use dgt::/
s/^pub extern "C" fn dgt_bench_/pub fn /
