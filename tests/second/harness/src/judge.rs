//! Whether what the firmware left behind is what the second implementation says: result, values and every byte of both areas.
use crate::guarded::Left;
use second::call::Call;
use second::chain::follow;
use second::expected::Expected;
use second::image::{chain_image, read_chain, read_forward, read_table};
use second::outcome::Passage;

/// The first `bytes` bytes of an answer area, where they are the image of a chain of exactly `entries` entries that joins the programs.
pub fn listed_chain(call: &Call, entries: usize, bytes: usize, answer: &[u8]) -> Result<Vec<u8>, String> {
    let Call::Chain { table, first, second, .. } = call else {
        return Err("no chain was asked for".into());
    };
    let table = read_table(table).map_err(|r| format!("{r:?}"))?;
    let first = read_forward(first, table.moves).map_err(|r| format!("{r:?}"))?;
    let second = read_forward(second, table.moves).map_err(|r| format!("{r:?}"))?;
    let image = answer.get(..bytes).ok_or(format!("the area has no {bytes} bytes"))?;
    let listed = read_chain(image, table.moves).map_err(|r| format!("the first {bytes} bytes are refused as a chain with {r:?}"))?;
    if listed.len() != entries {
        return Err(format!("the chain has {} entries, not {entries}", listed.len()));
    }
    if chain_image(table.moves, &listed) != image {
        return Err("the chain's image is not that of its entries".into());
    }
    match follow(&table, &first, &second, &listed, usize::MAX, &mut 0) {
        Ok(Passage::Joins) => Ok(image.to_vec()),
        other => Err(format!("the listed chain doesn't join the programs: {other:?}")),
    }
}

/// Compares what a call left with what it must leave; the error says what differs.
pub fn judge(call: &Call, expected: &Expected, workspace: &[u8], answer: &[u8], left: &Left) -> Result<(), String> {
    if (left.result, left.values) != (expected.result, expected.values) {
        return Err(format!("result {} {:?}, not {} {:?}", left.result, left.values, expected.result, expected.values));
    }
    let kept = !call.has_workspace() || expected.workspace_kept;
    let after = if kept { workspace.to_vec() } else { vec![0; workspace.len()] };
    if left.workspace != after {
        return Err(format!("the workspace is not {}", if kept { "as found" } else { "all zero" }));
    }
    let written = match expected.listed {
        Some((entries, bytes)) => listed_chain(call, entries, bytes, &left.answer)?,
        None => expected.written.clone(),
    };
    if left.answer.len() != answer.len() || !left.answer.starts_with(&written) {
        return Err(format!("the answer area doesn't begin with {written:02x?}"));
    }
    if left.answer[written.len()..] != answer[written.len()..] {
        return Err(format!("the answer area changed after its first {} bytes", written.len()));
    }
    Ok(())
}
