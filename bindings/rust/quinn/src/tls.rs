//! The configurations of TLS and QUIC, with certificates from files.
use quinn::{ClientConfig, ServerConfig, TransportConfig, VarInt};
use rustls::{Certificate, PrivateKey, RootCertStore};
use std::error::Error;
use std::fs;
use std::sync::Arc;
use std::time::Duration;
use vesgrauf::WEBTRANSPORT_ALPN;

/// Flow control: a stream keeps at most 256 KiB, and a connection ten times as much. Of the streams of a
/// connection 256 each way are open at once: a page may open a hundred beside that of its session.
fn transport() -> Arc<TransportConfig> {
    let mut transport = TransportConfig::default();
    transport
        .max_concurrent_bidi_streams(VarInt::from_u32(256))
        .max_concurrent_uni_streams(VarInt::from_u32(256))
        .stream_receive_window(VarInt::from_u32(256 * 1024))
        .receive_window(VarInt::from_u32(2560 * 1024))
        .max_idle_timeout(Some(VarInt::from_u32(30_000).into()))
        .keep_alive_interval(Some(Duration::from_secs(5)));
    Arc::new(transport)
}

/// Returns the certificates of a file in PEM.
fn certificates(file: &str) -> Result<Vec<Certificate>, Box<dyn Error>> {
    let found = rustls_pemfile::certs(&mut &fs::read(file)?[..])?;
    Ok(found.into_iter().map(Certificate).collect())
}

/// Returns the configuration of a server, with a certificate and its key from files in PEM.
pub fn server(certificate: &str, key: &str) -> Result<ServerConfig, Box<dyn Error>> {
    let keys = rustls_pemfile::pkcs8_private_keys(&mut &fs::read(key)?[..])?;
    let key = PrivateKey(keys.into_iter().next().ok_or("there is no PKCS #8 key in the file")?);
    let mut tls = rustls::ServerConfig::builder()
        .with_safe_default_cipher_suites()
        .with_safe_default_kx_groups()
        .with_protocol_versions(&[&rustls::version::TLS13])?
        .with_no_client_auth()
        .with_single_cert(certificates(certificate)?, key)?;
    tls.alpn_protocols = vec![WEBTRANSPORT_ALPN.to_vec()];
    let mut config = ServerConfig::with_crypto(Arc::new(tls));
    config.transport_config(transport());
    Ok(config)
}

/// Returns the configuration of a client that trusts the certificates of a file in PEM.
pub fn client(certificate: &str) -> Result<ClientConfig, Box<dyn Error>> {
    let mut roots = RootCertStore::empty();
    for certificate in certificates(certificate)? {
        roots.add(&certificate)?;
    }
    let mut tls = rustls::ClientConfig::builder()
        .with_safe_default_cipher_suites()
        .with_safe_default_kx_groups()
        .with_protocol_versions(&[&rustls::version::TLS13])?
        .with_root_certificates(roots)
        .with_no_client_auth();
    tls.alpn_protocols = vec![WEBTRANSPORT_ALPN.to_vec()];
    let mut config = ClientConfig::new(Arc::new(tls));
    config.transport_config(transport());
    Ok(config)
}
