//! Tests of the ciphers with the vectors of their standards: FIPS 197, NIST SP 800-38A, RFC 4493, the EAX paper, RFC 3610.
mod vectors;
