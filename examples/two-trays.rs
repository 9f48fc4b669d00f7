//! Two trays in one night: reads the files `shop`, `first` and `second` of the
//! current folder, and goes from the two orders to one accepted night. The joined
//! order and its trace are written as the files `order` and `trace`, which
//! `./replay` replays again.

/// The words of a file, low byte first.
fn words(name: &str) -> Vec<u16> {
    let bytes = std::fs::read(name).expect(name);
    bytes
        .chunks_exact(2)
        .map(|b| u16::from_le_bytes([b[0], b[1]]))
        .collect()
}

/// Writes words as a file, low byte first.
fn keep(name: &str, words: &[u16]) {
    let bytes: Vec<u8> = words.iter().flat_map(|word| word.to_le_bytes()).collect();
    std::fs::write(name, bytes).expect(name);
}

fn main() -> Result<(), liropuva::Refusal> {
    let (shop, first, second) = (words("shop"), words("first"), words("second"));
    let mut order = [0; liropuva::JOIN_ROOM];
    let mut trace = [0; liropuva::SEARCH_ROOM];
    let mut plan = [0; liropuva::PLAN_ROOM];

    let joined = liropuva::join(&shop, &first, &second, &mut order)?;
    let found = liropuva::search(&shop, joined.sheet(&order), 32, &mut trace)?;
    let night = liropuva::replay(&shop, joined.sheet(&order), found.trace(&trace), &mut plan)?;

    println!("plan {:?}, cost {}", night.plan(&plan), night.cost);
    keep("order", joined.sheet(&order));
    keep("trace", found.trace(&trace));
    Ok(())
}
