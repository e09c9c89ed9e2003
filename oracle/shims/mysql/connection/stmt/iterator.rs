// The original's rows are gone through by our own driver, mysql/connection/drive.rs.
