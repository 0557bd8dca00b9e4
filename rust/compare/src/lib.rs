// SPDX-License-Identifier: MIT OR Apache-2.0
//! The exports of the static library and the same source as ordinary Rust do the same.

#[cfg(test)]
mod compare;
