//! Stand-ins for what the original uses and is not at hand.
pub mod blake2b;
pub mod bytes;
pub mod chain;
pub mod molecule;
pub mod packed;
pub mod sdk;
pub mod view;

/// The crates, by the names that the original's `use` lines give them.
pub mod crates {
    pub mod ckb_types {
        pub mod core {
            pub use crate::standins::sdk::BlockView;
            pub use crate::standins::view::{Capacity, FeeRate, TransactionView};
        }
        pub use crate::standins::{bytes, packed, view::prelude};
    }
    pub mod molecule {
        pub use crate::standins::{bytes, view::prelude};
    }
    pub mod ckb_sdk {
        pub use crate::standins::sdk::*;
    }
    pub mod ckb_jsonrpc_types {
        pub use crate::standins::chain::CellOutput;
    }
    pub mod fiber_types {
        pub mod serde_utils {
            pub struct EntityHex;
        }
    }
    pub mod anyhow {
        pub struct Error(pub String);
        impl Error {
            pub fn msg(m: impl std::fmt::Display) -> Self {
                Error(m.to_string())
            }
        }
        impl std::fmt::Debug for Error {
            fn fmt(&self, f: &mut std::fmt::Formatter<'_>) -> std::fmt::Result {
                f.write_str(&self.0)
            }
        }
        impl std::fmt::Display for Error {
            fn fmt(&self, f: &mut std::fmt::Formatter<'_>) -> std::fmt::Result {
                f.write_str(&self.0)
            }
        }
        impl<E: std::error::Error + 'static> From<E> for Error {
            fn from(e: E) -> Self {
                Error(e.to_string())
            }
        }
        macro_rules! anyhow {
            ($e:expr) => {
                crate::standins::crates::anyhow::Error::msg($e)
            };
        }
        pub(crate) use anyhow;
    }
    pub mod tracing {
        macro_rules! debug {
            ($($t:tt)*) => {
                ()
            };
        }
        macro_rules! enabled {
            ($($t:tt)*) => {
                false
            };
        }
        pub(crate) use {debug, debug as trace, enabled};
    }
    pub mod serde {
        pub use standin_macros::{Deserialize, Serialize};
    }
    pub mod serde_with {
        pub use standin_macros::serde_as;
    }
    pub mod async_trait {
        pub use standin_macros::async_trait;
    }
    pub mod thiserror {
        pub use standin_macros::Error;
    }
    pub mod ractor {
        #[derive(Debug)]
        pub struct RactorErr<T>(pub T);
        impl<T> std::fmt::Display for RactorErr<T> {
            fn fmt(&self, f: &mut std::fmt::Formatter<'_>) -> std::fmt::Result {
                f.write_str("ractor")
            }
        }
    }
    pub mod serde_json {
        pub use std::fmt::Error;
    }
    pub mod futures {
        pub mod future {
            pub async fn join_all<F: std::future::Future>(all: impl IntoIterator<Item = F>) -> Vec<F::Output> {
                let mut out = vec![];
                for f in all {
                    out.push(f.await);
                }
                out
            }
        }
    }
    pub mod secp256k1 {
        pub struct SecretKey(Vec<u8>);
        impl AsRef<[u8]> for SecretKey {
            fn as_ref(&self) -> &[u8] {
                &self.0
            }
        }
    }
    pub mod hex {
        pub fn encode(b: &[u8]) -> String {
            b.iter().map(|x| format!("{x:02x}")).collect()
        }
    }
}

/// Runs a future whose every await is answered at once.
pub fn block_on<F: std::future::Future>(f: F) -> F::Output {
    let mut f = std::pin::pin!(f);
    let mut cx = std::task::Context::from_waker(std::task::Waker::noop());
    match f.as_mut().poll(&mut cx) {
        std::task::Poll::Ready(x) => x,
        std::task::Poll::Pending => panic!("a stand-in never waits"),
    }
}
