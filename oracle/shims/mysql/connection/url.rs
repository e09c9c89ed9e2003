// How a server is reached: by a socket, as a user without a password.

use std::ffi::{CStr, CString};

pub struct ConnectionOptions {
    pub socket: CString,
}

pub struct ClientFlags;

impl ClientFlags {
    pub fn bits(&self) -> u32 {
        0
    }
}

impl ConnectionOptions {
    pub fn host(&self) -> Option<&CStr> {
        None
    }

    pub fn user(&self) -> &CStr {
        c"u"
    }

    pub fn password(&self) -> Option<&CStr> {
        None
    }

    pub fn database(&self) -> Option<&CStr> {
        None
    }

    pub fn port(&self) -> Option<u16> {
        None
    }

    pub fn unix_socket(&self) -> Option<&CStr> {
        Some(&self.socket)
    }

    pub fn client_flags(&self) -> ClientFlags {
        ClientFlags
    }

    pub fn ssl_mode(&self) -> Option<mysqlclient_sys::mysql_ssl_mode> {
        None
    }

    pub fn ssl_ca(&self) -> Option<&CStr> {
        None
    }

    pub fn ssl_cert(&self) -> Option<&CStr> {
        None
    }

    pub fn ssl_key(&self) -> Option<&CStr> {
        None
    }
}
