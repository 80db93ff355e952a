//! The fox in Rust: one user checks a name, another cannot make it. After `./archive`:
//! `cargo run --offline --example fox`.

use tickbutton::{Call, Refusal, Service};

fn main() -> Result<(), Refusal> {
    let mut service = Service::new();
    service.call(&Call::Enter { process: 20, user: 500 })?;
    service.call(&Call::Enter { process: 30, user: 600 })?;
    service.call(&Call::Check { process: 20, path: "/fox".into() })?;
    let refusal = service.call(&Call::Create { process: 30, path: "/fox".into() }).unwrap_err();
    println!("refused {}: {refusal}", refusal.number());
    Ok(())
}
