//! Sheets written as words.

/// The bytes of a sheet: marks as they stand, numbers as fields.
pub fn sheet(words: &str) -> Vec<u8> {
    words
        .split_whitespace()
        .flat_map(|word| match word.parse::<u16>() {
            Ok(field) => field.to_le_bytes(),
            Err(_) => word.as_bytes().try_into().expect("a mark has two letters"),
        })
        .collect()
}

/// Sheet A.
pub fn sheet_a() -> Vec<u8> {
    sheet(
        "HZ 8
         ML 1 MD 4 TK 0 2 3 4
         ML 2 MD 4 TK 0 1 4 4 SW 1 4
              MD 4 TK 1 2 2 4
         EN 10",
    )
}

/// Sheet B: A with horizon 6.
pub fn sheet_b() -> Vec<u8> {
    let mut bytes = sheet_a();
    bytes[2] = 6;
    bytes
}

/// Sheet F.
pub fn sheet_f() -> Vec<u8> {
    sheet(
        "HZ 16
         ML 2 MD 4 TK 0 2 2 4 SW 1 4
              MD 4 TK 2 2 2 4 SW 0 4
         ML 1 MD 8 TK 0 4 8 8
         EN 11",
    )
}

/// Sheet G.
pub fn sheet_g() -> Vec<u8> {
    sheet(
        "HZ 8
         ML 2 MD 4 TK 0 1 1 4 SW 1 4
              MD 4 TK 1 3 3 4 SW 0 4
         ML 1 MD 8 TK 0 6 8 8
         EN 11",
    )
}

/// Sheet H.
pub fn sheet_h() -> Vec<u8> {
    sheet("HZ 1 ML 1 MD 1 EN 3")
}

/// A sheet with a factory mode, mode 2 of module 0, that no switch leads to.
pub fn sheet_factory() -> Vec<u8> {
    sheet(
        "HZ 8
         ML 3 MD 4 TK 0 1 4 4 SW 1 4
              MD 4 TK 0 2 4 4 SW 0 4
              MD 4 TK 0 4 4 4 SW 0 4
         ML 1 MD 4 TK 0 2 4 4
         EN 14",
    )
}

/// The same sheet with its mode 1 switching to the factory mode, not to mode 0.
pub fn sheet_factory_entered() -> Vec<u8> {
    let mut bytes = sheet_factory();
    bytes[44] = 2;
    bytes
}

/// Pen, whose long mode has this task, is left by this switch, and stands beside
/// a module with this task.
pub fn sheet_pen(long: &str, switch: &str, beside: &str) -> Vec<u8> {
    sheet(&format!(
        "HZ 12
         ML 2 MD 12 {long} {switch}
              MD 2 TK 0 1 1 2 SW 0 2
         ML 1 MD 6 {beside}
         EN 11"
    ))
}

/// Pen with a long mode that SW can leave every 4 ticks, since its task does
/// its work every 4 ticks.
pub fn sheet_leave_by_sw() -> Vec<u8> {
    sheet_pen("TK 0 3 4 4", "SW 1 4", "TK 0 2 6 6")
}

/// Pen with a long mode that SX can leave every 4 ticks; its task has period 12.
pub fn sheet_leave_by_sx() -> Vec<u8> {
    sheet_pen("TK 0 3 4 12", "SX 1 4", "TK 0 2 6 6")
}

/// The same beside more work.
pub fn sheet_leave_by_sx_over() -> Vec<u8> {
    sheet_pen("TK 0 3 4 12", "SX 1 4", "TK 0 3 6 6")
}
