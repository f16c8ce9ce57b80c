//! The plain rules as a C archive with the functions of `include/cetomuhi.h`: what links with the
//! proved library links with these as well.

mod boundary;
mod rules;
