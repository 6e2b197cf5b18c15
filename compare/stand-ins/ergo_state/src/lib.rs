//! Stand-in for `ergo_state`: how the reference's tests begin a write.

pub fn begin_write_qr(db: &redb::Database) -> Result<redb::WriteTransaction, redb::TransactionError> {
    db.begin_write()
}
