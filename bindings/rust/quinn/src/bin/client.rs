//! Opens sessions at the server's /echo, sends streams and datagrams, and compares what comes back.
//!
//! client PORT SECONDS CERTIFICATE SESSIONS SEED
//!
//! Five sessions run at once on each of eight connections. Each has five bidirectional and five unidirectional
//! streams of up to 20,000 bytes, one that is reset, and a datagram; then it is closed, by the client or, in
//! every fifth session, by the server. Ends with 'N passed, M failed'.
use std::error::Error;
use std::net::SocketAddr;
use std::sync::atomic::{AtomicU64, Ordering::Relaxed};
use std::sync::Arc;
use std::time::Duration;
use vesgrauf_quinn::{tls, Closed, Http, Session, StreamError};

const CONNECTIONS: u64 = 8;
const AT_ONCE: u64 = 5;
const STREAMS: u64 = 5;
const LONGEST: u64 = 20_000;

type Outcome = Result<(), String>;

#[derive(Default)]
struct Counts {
    begun: AtomicU64,
    passed: AtomicU64,
    streams: AtomicU64,
    datagrams: AtomicU64,
}

/// Returns a random number (splitmix64).
fn random(seed: u64) -> u64 {
    let mut z = seed.wrapping_mul(0x9e37_79b9_7f4a_7c15);
    z = (z ^ (z >> 30)).wrapping_mul(0xbf58_476d_1ce4_e5b9);
    z = (z ^ (z >> 27)).wrapping_mul(0x94d0_49bb_1331_11eb);
    z ^ (z >> 31)
}

/// Returns the bytes of a stream, which are its own.
fn pattern(key: u64) -> Vec<u8> {
    (0..random(key) % LONGEST).map(|place| (key + 1 + 7 * place) as u8 | 0x80).collect()
}

fn failed(error: StreamError) -> String {
    format!("a stream ended: {error:?}")
}

#[tokio::main]
async fn main() -> Result<(), Box<dyn Error>> {
    let arguments: Vec<String> = std::env::args().skip(1).collect();
    let (port, seconds, certificate, wanted, seed) = match &arguments[..] {
        [port, seconds, certificate, sessions, seed] => {
            (port.parse()?, seconds.parse()?, certificate, sessions.parse()?, seed.parse::<u64>()?)
        }
        _ => return Err("usage: client PORT SECONDS CERTIFICATE SESSIONS SEED".into()),
    };
    let mut endpoint = quinn::Endpoint::client(SocketAddr::from(([127, 0, 0, 1], 0)))?;
    endpoint.set_default_client_config(tls::client(certificate)?);
    let counts = Arc::new(Counts::default());
    let address = SocketAddr::from(([127, 0, 0, 1], port));
    let connections = (0..CONNECTIONS)
        .map(|_| tokio::spawn(connection(endpoint.clone(), address, counts.clone(), wanted, seed)));
    let connections: Vec<_> = connections.collect();
    let all = async {
        for connection in connections {
            let _ = connection.await;
        }
        endpoint.wait_idle().await;
    };
    if tokio::time::timeout(Duration::from_secs(seconds), all).await.is_err() {
        println!("it took longer than {seconds} seconds");
    }
    let count = |number: &AtomicU64| number.load(Relaxed);
    let passed = count(&counts.passed);
    println!(
        "{} streams and {} datagrams came back",
        count(&counts.streams),
        count(&counts.datagrams)
    );
    println!("{passed} passed, {} failed", wanted - passed);
    std::process::exit((passed != wanted).into())
}

/// Opens sessions on a connection until there are as many as wanted.
async fn connection(
    endpoint: quinn::Endpoint,
    address: SocketAddr,
    counts: Arc<Counts>,
    wanted: u64,
    seed: u64,
) {
    let connecting = endpoint.connect(address, "localhost").expect("the address is one");
    let quic = match connecting.await {
        Ok(quic) => quic,
        Err(error) => return println!("no connection: {error}"),
    };
    let http = Arc::new(Http::client(quic));
    let tasks = (0..AT_ONCE).map(|_| {
        let (http, counts) = (http.clone(), counts.clone());
        tokio::spawn(async move {
            loop {
                let number = counts.begun.fetch_add(1, Relaxed);
                if number >= wanted {
                    return;
                }
                match session(&http, &counts, random(seed) ^ number, number % 5 == 4).await {
                    Ok(()) => drop(counts.passed.fetch_add(1, Relaxed)),
                    Err(why) => println!("the session {number}: {why}"),
                }
            }
        })
    });
    for task in tasks.collect::<Vec<_>>() {
        let _ = task.await;
    }
    http.close();
}

/// One session from its request to its end.
async fn session(http: &Http, counts: &Counts, key: u64, by_server: bool) -> Outcome {
    let url = "https://localhost/echo";
    let session = http.connect(url).await.map_err(|error| error.to_string())?;
    let echoes = async {
        for stream in 0..STREAMS {
            echo(&session, key + stream).await?;
            counts.streams.fetch_add(1, Relaxed);
        }
        Outcome::Ok(())
    };
    let others = one_way(&session, counts, key + STREAMS);
    let reset = reset(&session);
    let datagram = datagram(&session, counts);
    let (echoes, others, reset, ()) = tokio::join!(echoes, others, reset, datagram);
    echoes.and(others).and(reset)?;
    let closed = match by_server {
        false => session.close(7, "bye").await,
        true => {
            let (mut send, _receive) = session.open_bi().await.map_err(failed)?;
            send.write_all("!close 4294967295 tschüß".as_bytes()).await.map_err(failed)?;
            let _ = send.finish().await; // its session may be over before it is acknowledged
            session.closed().await
        }
    };
    match (by_server, closed) {
        (false, Closed::Here) => Ok(()),
        (true, Closed::Peer(u32::MAX, reason)) if reason == "tschüß" => Ok(()),
        (_, closed) => Err(format!("it ended: {closed:?}")),
    }
}

/// Sends bytes on a bidirectional stream, and compares what comes back.
async fn echo(session: &Session, key: u64) -> Outcome {
    let bytes = pattern(key);
    let (mut send, mut receive) = session.open_bi().await.map_err(failed)?;
    let sending = async {
        send.write_all(&bytes).await?;
        send.finish().await
    };
    let (sent, came) = tokio::join!(sending, receive.read_to_end(LONGEST as usize));
    sent.map_err(failed)?;
    match came.map_err(failed)? == bytes {
        true => Ok(()),
        false => Err("other bytes came back".into()),
    }
}

/// Sends unidirectional streams, and compares those that come back, in any order.
async fn one_way(session: &Session, counts: &Counts, key: u64) -> Outcome {
    let mut sent: Vec<Vec<u8>> = (key..key + STREAMS).map(pattern).collect();
    for bytes in &sent {
        let mut send = session.open_uni().await.map_err(failed)?;
        send.write_all(bytes).await.map_err(failed)?;
        send.finish().await.map_err(failed)?;
    }
    while !sent.is_empty() {
        let mut receive = session.accept_uni().await.ok_or("it ended before its streams")?;
        let came = receive.read_to_end(LONGEST as usize).await.map_err(failed)?;
        let place = sent.iter().position(|bytes| *bytes == came);
        sent.remove(place.ok_or("other bytes came on a stream")?);
        counts.streams.fetch_add(1, Relaxed);
    }
    Ok(())
}

/// Resets a stream, which the server answers by resetting its half with the same code.
async fn reset(session: &Session) -> Outcome {
    let (mut send, mut receive) = session.open_bi().await.map_err(failed)?;
    send.write_all(b"x").await.map_err(failed)?;
    if receive.read().await.map_err(failed)?.as_deref() != Some(b"x") {
        return Err("the byte did not come back".into());
    }
    send.reset(77);
    match receive.read().await {
        Err(StreamError::Peer(Some(77))) => Ok(()),
        other => Err(format!("a stream that was reset: {other:?}")),
    }
}

/// Sends a datagram, which may be lost.
async fn datagram(session: &Session, counts: &Counts) {
    session.send_datagram(b"datagram");
    let wait = Duration::from_secs(1);
    if let Ok(Some(payload)) = tokio::time::timeout(wait, session.datagram()).await {
        assert_eq!(&payload[..], b"datagram");
        counts.datagrams.fetch_add(1, Relaxed);
    }
}
