//! Document 01's example tape and proof sheet, on the original and on the ledger.

#[test]
fn every_case_holds() {
    assert_eq!(oracle::sheet::check(), Ok(13));
}
