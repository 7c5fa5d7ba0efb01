//! Rattle's standard library for plain Rust, as far as the program calls it: that of Rust, with
//! texts, lists and maps whose calls return what an allocation returns. None fails here: if memory
//! runs out, `Refusing` ends the program as the proved one ends.

use core::fmt::{Arguments, Debug, Display, Formatter};
use core::ops::{Deref, DerefMut};
use std::fs::{File, Metadata};
use std::io::{IsTerminal, Read, Write};
use std::mem::ManuallyDrop;
use std::os::fd::{FromRawFd, RawFd};

pub use std::fmt;
pub use std::*;

pub mod alloc {
    #[derive(Clone, Copy, Debug)]
    pub struct Global;
    #[derive(Clone, Copy, Debug)]
    pub struct AllocError;
    #[derive(Debug)]
    pub struct AllocFailed<T>(core::marker::PhantomData<T>);
}
use alloc::{AllocError, Global};

pub mod prelude {
    pub use super::{Box, Drop, Eprint, HostRuntime, Print, String, TextOf, TryCollect, Vec};
}
pub mod collections {
    pub use super::BTreeMap;
}
pub mod convert {
    pub use super::AsStr;
    pub use std::convert::*;
}
pub mod process {
    pub use super::ExitCode;
}
pub mod fs {
    pub trait Files {}
}
pub mod env {
    pub use super::args;
}

/// All types, as in Rattle.
pub trait Drop {}
impl<T: ?Sized> Drop for T {}

/// What clap prints with, which the program does not.
pub trait Print {
    fn print<T: Display>(&self, text: T) -> io::Result<()>;
}
pub trait Eprint {
    fn eprint<T: Display>(&self, text: T) -> io::Result<()>;
}

#[derive(Clone, Debug)]
pub struct Vec<T>(std::vec::Vec<T>);

impl<T> Vec<T> {
    pub fn new(_alloc: Global) -> Self {
        Vec(std::vec::Vec::new())
    }

    pub fn push(&mut self, item: T) -> Result<(), AllocError> {
        Ok(self.0.push(item))
    }

    pub fn insert(&mut self, at: usize, item: T) -> Result<(), AllocError> {
        Ok(self.0.insert(at, item))
    }

    pub fn extend_from_slice(&mut self, items: &[T]) -> Result<(), AllocError>
    where
        T: Clone,
    {
        Ok(self.0.extend_from_slice(items))
    }

    pub fn as_slice(&self) -> &[T] {
        &self.0
    }
}

impl<T> Deref for Vec<T> {
    type Target = std::vec::Vec<T>;

    fn deref(&self) -> &Self::Target {
        &self.0
    }
}

impl<T> DerefMut for Vec<T> {
    fn deref_mut(&mut self) -> &mut Self::Target {
        &mut self.0
    }
}

impl<T> IntoIterator for Vec<T> {
    type Item = T;
    type IntoIter = std::vec::IntoIter<T>;

    fn into_iter(self) -> Self::IntoIter {
        self.0.into_iter()
    }
}

impl<'a, T> IntoIterator for &'a Vec<T> {
    type Item = &'a T;
    type IntoIter = core::slice::Iter<'a, T>;

    fn into_iter(self) -> Self::IntoIter {
        self.0.iter()
    }
}

pub struct String(std::string::String);

impl String {
    pub fn new(_alloc: Global) -> Self {
        String(std::string::String::new())
    }

    pub fn from_str(_alloc: Global, text: &str) -> Result<Self, AllocError> {
        Ok(String(text.into()))
    }

    pub fn push(&mut self, character: char) -> Result<(), AllocError> {
        Ok(self.0.push(character))
    }

    pub fn push_str(&mut self, text: &str) -> Result<(), AllocError> {
        Ok(self.0.push_str(text))
    }

    pub fn write_fmt(&mut self, text: Arguments<'_>) -> Result<(), AllocError> {
        fmt::Write::write_fmt(&mut self.0, text).map_err(|_| AllocError)
    }

    pub fn as_str(&self) -> &str {
        &self.0
    }
}

impl Deref for String {
    type Target = str;

    fn deref(&self) -> &str {
        &self.0
    }
}

impl Display for String {
    fn fmt(&self, f: &mut Formatter<'_>) -> fmt::Result {
        Display::fmt(&self.0, f)
    }
}

impl Debug for String {
    fn fmt(&self, f: &mut Formatter<'_>) -> fmt::Result {
        Debug::fmt(&self.0, f)
    }
}

impl PartialEq for String {
    fn eq(&self, other: &Self) -> bool {
        self.0 == other.0
    }
}
impl Eq for String {}
impl PartialOrd for String {
    fn partial_cmp(&self, other: &Self) -> Option<core::cmp::Ordering> {
        self.0.partial_cmp(&other.0)
    }
}
impl Ord for String {
    fn cmp(&self, other: &Self) -> core::cmp::Ordering {
        self.0.cmp(&other.0)
    }
}

pub fn string_of(text: Arguments<'_>) -> Result<String, AllocError> {
    Ok(String(std::fmt::format(text)))
}

pub fn replace(_alloc: Global, text: &str, from: &str, to: &str) -> Result<String, AllocError> {
    Ok(String(text.replace(from, to)))
}

pub trait TextOf: Display {
    fn to_string(&self, _alloc: Global) -> Result<String, AllocError> {
        string_of(core::format_args!("{self}"))
    }
}
impl<T: Display> TextOf for T {}

/// `try_collect` of what may fail.
pub trait TryCollect: Iterator + Sized {
    fn try_collect<T, E>(self, _alloc: Global) -> Result<Vec<T>, E>
    where
        Self: Iterator<Item = Result<T, E>>,
    {
        Iterator::collect::<Result<std::vec::Vec<T>, E>>(self).map(Vec)
    }
}
impl<I: Iterator> TryCollect for I {}

pub trait AsStr {
    fn as_str(&self) -> &str;
}
impl AsStr for String {
    fn as_str(&self) -> &str {
        &self.0
    }
}
impl AsStr for &str {
    fn as_str(&self) -> &str {
        self
    }
}

#[derive(Debug)]
pub struct Box<T>(std::boxed::Box<T>);

impl<T> Box<T> {
    pub fn new(_alloc: Global, item: T) -> Result<Self, AllocError> {
        Ok(Box(std::boxed::Box::new(item)))
    }

    pub fn into_inner(found: Self) -> T {
        *found.0
    }
}

impl<T> Deref for Box<T> {
    type Target = T;

    fn deref(&self) -> &T {
        &self.0
    }
}

impl<T> DerefMut for Box<T> {
    fn deref_mut(&mut self) -> &mut T {
        &mut self.0
    }
}

pub struct BTreeMap<K, V>(std::collections::BTreeMap<K, V>);

impl<K: Ord, V> BTreeMap<K, V> {
    pub fn new(_alloc: Global) -> Self {
        BTreeMap(std::collections::BTreeMap::new())
    }

    pub fn insert(&mut self, key: K, value: V) -> Result<Option<V>, AllocError> {
        Ok(self.0.insert(key, value))
    }
}

impl<'a, K, V> IntoIterator for &'a BTreeMap<K, V> {
    type Item = (&'a K, &'a V);
    type IntoIter = std::collections::btree_map::Iter<'a, K, V>;

    fn into_iter(self) -> Self::IntoIter {
        self.0.iter()
    }
}

/// What the system gives the program.
pub struct HostRuntime;
pub struct ExitCode(pub u8);

impl From<u8> for ExitCode {
    fn from(status: u8) -> Self {
        ExitCode(status)
    }
}

/// A standard stream without a buffer, which isn't closed.
pub struct Stream(ManuallyDrop<File>);

impl Stream {
    fn of(number: RawFd) -> Self {
        Stream(ManuallyDrop::new(unsafe { File::from_raw_fd(number) }))
    }

    pub fn is_terminal(&self) -> bool {
        self.0.is_terminal()
    }
}

impl Read for Stream {
    fn read(&mut self, buffer: &mut [u8]) -> io::Result<usize> {
        self.0.read(buffer)
    }
}

impl Write for Stream {
    fn write(&mut self, bytes: &[u8]) -> io::Result<usize> {
        self.0.write(bytes)
    }

    fn flush(&mut self) -> io::Result<()> {
        Ok(())
    }
}

impl HostRuntime {
    pub fn alloc(&self) -> Global {
        Global
    }

    pub fn stdin(&self) -> Stream {
        Stream::of(0)
    }

    pub fn stdout(&self) -> Stream {
        Stream::of(1)
    }

    pub fn stderr(&self) -> Stream {
        Stream::of(2)
    }

    pub fn metadata(&self, path: &str) -> io::Result<Metadata> {
        std::fs::metadata(path)
    }
}

pub struct Args(std::vec::Vec<std::string::String>);

pub fn args(_rt: &HostRuntime) -> io::Result<Args> {
    let words = std::env::args_os().map(|word| word.into_string());
    match words.collect::<Result<std::vec::Vec<_>, _>>() {
        Ok(words) => Ok(Args(words)),
        Err(_) => Err(io::ErrorKind::InvalidData.into()),
    }
}

impl Args {
    pub fn collect(self, _alloc: Global) -> Result<Vec<String>, AllocError> {
        Ok(Vec(self.0.into_iter().map(String).collect()))
    }
}

unsafe extern "C" {
    fn signal(number: i32, handler: usize) -> usize;
    fn exit(status: i32) -> !;
}

/// A write to a pipe that nobody reads fails, and ends no process.
pub fn ignore_broken_pipes() {
    const SIGPIPE: i32 = 13;
    const SIG_IGN: usize = 1;
    unsafe { signal(SIGPIPE, SIG_IGN) };
}

/// Ends the program if memory runs out.
struct Refusing;

unsafe impl core::alloc::GlobalAlloc for Refusing {
    unsafe fn alloc(&self, layout: core::alloc::Layout) -> *mut u8 {
        let memory = unsafe { core::alloc::GlobalAlloc::alloc(&std::alloc::System, layout) };
        if memory.is_null() {
            let _ = Stream::of(2).write(b"dgt: out of memory\n");
            unsafe { exit(3) };
        }
        memory
    }

    unsafe fn dealloc(&self, memory: *mut u8, layout: core::alloc::Layout) {
        unsafe { core::alloc::GlobalAlloc::dealloc(&std::alloc::System, memory, layout) }
    }
}

#[global_allocator]
static ALLOCATOR: Refusing = Refusing;
