//! A server of HTTP/3 and WebTransport on 127.0.0.1: a page, POST with content of any length, and sessions at
//! /echo. There what comes on a bidirectional stream goes back on it, what comes on a unidirectional one goes
//! back on another, and so does each datagram; a bidirectional stream that begins with ! has a command.
//!
//! server PORT SECONDS CERTIFICATE KEY PAGE
//!
//! It prints the results that the page sends, and ends after the page's last one, or the time, or when its
//! standard input ends.
use std::error::Error;
use std::net::SocketAddr;
use std::sync::atomic::{AtomicU64, Ordering::Relaxed};
use std::sync::Arc;
use std::time::Duration;
use tokio::sync::Notify;
use vesgrauf_quinn::{tls, Closed, Http, Receive, Request, Send, Session, StreamError};

/// The longest command, and the longest unidirectional stream that goes back.
const COMMAND: usize = 1024;
const ONE_WAY: usize = 1 << 20;

#[derive(Default)]
struct Server {
    page: Vec<u8>,
    done: Notify,
    sessions: AtomicU64,
    closed: AtomicU64,
    streams: AtomicU64,
    datagrams: AtomicU64,
    resets: AtomicU64,
}

#[tokio::main]
async fn main() -> Result<(), Box<dyn Error>> {
    let arguments: Vec<String> = std::env::args().skip(1).collect();
    let (port, seconds, certificate, key, page) = match &arguments[..] {
        [port, seconds, certificate, key, page] => (port, seconds, certificate, key, page),
        _ => return Err("usage: server PORT SECONDS CERTIFICATE KEY PAGE".into()),
    };
    let address = SocketAddr::from(([127, 0, 0, 1], port.parse()?));
    let endpoint = quinn::Endpoint::server(tls::server(certificate, key)?, address)?;
    let server = Arc::new(Server { page: std::fs::read(page)?, ..Server::default() });
    println!("listening on {}", endpoint.local_addr()?);
    let accepting = async {
        while let Some(connecting) = endpoint.accept().await {
            let server = server.clone();
            tokio::spawn(async move {
                if let Ok(quic) = connecting.await {
                    serve(server, Http::server(quic)).await;
                }
            });
        }
    };
    tokio::select! {
        _ = accepting => {}
        _ = server.done.notified() => {}
        _ = input_ends() => {}
        _ = tokio::time::sleep(Duration::from_secs_f64(seconds.parse()?)) => {}
    }
    tokio::time::sleep(Duration::from_millis(300)).await; // for the last response
    endpoint.close(0x100u32.into(), b"");
    let count = |number: &AtomicU64| number.load(Relaxed);
    println!(
        "{} sessions, {} closed, {} streams, {} datagrams, {} resets",
        count(&server.sessions),
        count(&server.closed),
        count(&server.streams),
        count(&server.datagrams),
        count(&server.resets)
    );
    std::process::exit(0) // the thread that reads standard input does not end by itself
}

/// Waits until standard input ends.
async fn input_ends() {
    let end = Arc::new(Notify::new());
    let told = end.clone();
    std::thread::spawn(move || {
        let _ = std::io::copy(&mut std::io::stdin(), &mut std::io::sink());
        told.notify_one();
    });
    end.notified().await;
}

async fn serve(server: Arc<Server>, mut http: Http) {
    while let Some(request) = http.request().await {
        tokio::spawn(answer(server.clone(), request));
    }
}

async fn answer(server: Arc<Server>, request: Request) {
    let path = request.text(":path").to_string();
    let method = request.text(":method").to_string();
    let page = path == "/" || path.starts_with("/?");
    if request.is_for_session() {
        return match path.as_str() {
            "/echo" => session(server, request).await,
            _ => drop(request.respond(404, &[], b"").await),
        };
    }
    let html = [("content-type", "text/html; charset=utf-8")];
    let _ = match method.as_str() {
        "POST" => return post(server, request, &path).await,
        "GET" if page => request.respond(200, &html, &server.page).await,
        "HEAD" if page => request.respond(200, &html, b"").await,
        "GET" | "HEAD" => request.respond(404, &[], b"").await,
        "CONNECT" => request.respond(501, &[], b"").await, // a tunnel by another protocol
        _ => request.respond(405, &[("allow", "GET, HEAD, POST")], b"").await,
    };
}

async fn post(server: Arc<Server>, mut request: Request, path: &str) {
    let mut size = 0;
    while let Some(piece) = request.content().await {
        size += piece.len();
    }
    if let Some(result) = path.strip_prefix("/result?") {
        println!("{result}");
    }
    let text = format!("{size} bytes\n");
    let _ = request.respond(200, &[("content-type", "text/plain")], text.as_bytes()).await;
    if path == "/done" {
        server.done.notify_one();
    }
}

async fn session(server: Arc<Server>, request: Request) {
    let session = match request.accept().await {
        Ok(session) => Arc::new(session),
        Err(_) => return,
    };
    server.sessions.fetch_add(1, Relaxed);
    let both_ways = async {
        while let Some((send, receive)) = session.accept_bi().await {
            server.streams.fetch_add(1, Relaxed);
            let (server, session) = (server.clone(), session.clone());
            tokio::spawn(async move {
                if let Err(StreamError::Peer(_)) = echo(&session, send, receive).await {
                    server.resets.fetch_add(1, Relaxed);
                }
            });
        }
    };
    let one_way = async {
        while let Some(receive) = session.accept_uni().await {
            server.streams.fetch_add(1, Relaxed);
            tokio::spawn(send_back(session.clone(), receive));
        }
    };
    let datagrams = async {
        while let Some(payload) = session.datagram().await {
            server.datagrams.fetch_add(1, Relaxed);
            session.send_datagram(&payload);
        }
    };
    tokio::join!(both_ways, one_way, datagrams);
    if session.closed().await != Closed::Lost {
        server.closed.fetch_add(1, Relaxed);
    }
}

/// Sends what comes on a unidirectional stream back on another.
async fn send_back(session: Arc<Session>, mut receive: Receive) -> Result<(), StreamError> {
    let bytes = receive.read_to_end(ONE_WAY).await?;
    let mut send = session.open_uni().await?;
    send.write_all(&bytes).await?;
    send.finish().await
}

/// Sends what comes on a stream back, or does its command. A reset of the stream goes back too.
async fn echo(session: &Session, mut send: Send, mut receive: Receive) -> Result<(), StreamError> {
    let mut first = true;
    let ended = loop {
        match receive.read().await {
            Ok(Some(piece)) if first && piece[0] == b'!' => {
                let mut line = piece.to_vec();
                line.extend(receive.read_to_end(COMMAND).await?);
                return command(session, send, &String::from_utf8_lossy(&line)).await;
            }
            Ok(Some(piece)) => send.write_all(&piece).await?,
            Ok(None) => break Ok(()),
            Err(error) => break Err(error),
        }
        first = false;
    };
    match ended {
        Ok(()) => send.finish().await,
        Err(StreamError::Peer(code)) => {
            send.reset(code.unwrap_or(0));
            Err(StreamError::Peer(code))
        }
        Err(error) => Err(error),
    }
}

/// "!close CODE REASON": the session of a stream; "!reset CODE": the stream; "!open": another.
async fn command(session: &Session, mut send: Send, line: &str) -> Result<(), StreamError> {
    let mut words = line.splitn(3, ' ');
    let name = words.next().unwrap_or("");
    let code = words.next().and_then(|code| code.parse().ok()).unwrap_or(0);
    match name {
        "!close" => drop(session.close(code, words.next().unwrap_or("")).await),
        "!reset" => send.reset(code),
        "!open" => {
            let (mut other, mut back) = session.open_bi().await?;
            other.write_all(b"hello").await?;
            other.finish().await?;
            send.write_all(b"opened").await?;
            send.finish().await?;
            back.read_to_end(COMMAND).await?;
        }
        _ => send.reset(1),
    }
    Ok(())
}
