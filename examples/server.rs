//! A server with a thread for each connection: clients put, get and delete texts under numbers. No
//! thread keeps a worker of the map, each request takes one. So any number of clients may be
//! connected.
//!
//! A request is a line: `put 5 five`, `get 5` or `delete 5`. So is its answer.

use nm_set::{Fault, Map};
use std::io::{BufRead, BufReader, Result, Write};
use std::net::{TcpListener, TcpStream};
use std::thread::scope;

const CLIENTS: u64 = 200;
const REQUESTS: u64 = 20;

fn answer(map: &Map<String>, request: &str) -> std::result::Result<String, Fault> {
    let mut words = request.trim_end().splitn(3, ' ');
    let (what, key) = (words.next(), words.next().and_then(|it| it.parse().ok()));
    let mut worker = map.attach()?;
    Ok(match (what, key, words.next()) {
        (Some("put"), Some(key), Some(text)) => match worker.put(key, text.to_string()) {
            Ok(_) => "done".to_string(), // no client misses the key, also if it had a text
            Err(error) => error.to_string(),
        },
        (Some("get"), Some(key), None) => match worker.pin()?.get(key)? {
            Some(text) => text.clone(),
            None => "it is not there".to_string(),
        },
        (Some("delete"), Some(key), None) if worker.remove(key)? => "done".to_string(),
        (Some("delete"), Some(_), None) => "it is not there".to_string(),
        _ => "put KEY TEXT, get KEY or delete KEY".to_string(),
    })
}

fn serve(map: &Map<String>, mut stream: TcpStream) -> Result<()> {
    for request in BufReader::new(stream.try_clone()?).lines() {
        let told = answer(map, &request?).unwrap_or_else(|fault| fault.to_string());
        stream.write_all(format!("{told}\n").as_bytes())?;
    }
    Ok(())
}

/// Puts, gets and deletes keys of its own, and checks each answer.
fn be_a_client(mut to: TcpStream, number: u64) -> Result<()> {
    let mut answers = BufReader::new(to.try_clone()?).lines();
    for key in number * REQUESTS..(number + 1) * REQUESTS {
        for (request, wanted) in [
            (format!("put {key} text"), "done"),
            (format!("put {key} another"), "done"),
            (format!("get {key}"), "another"),
            (format!("delete {key}"), "done"),
            (format!("get {key}"), "it is not there"),
        ] {
            to.write_all(format!("{request}\n").as_bytes())?;
            assert_eq!(answers.next().expect("an answer")?, wanted, "{request}");
        }
    }
    Ok(())
}

fn main() -> Result<()> {
    let map = Map::new(65_536, 64).expect("there is memory for the map");
    let listener = TcpListener::bind("127.0.0.1:0")?;
    let here = listener.local_addr()?;
    scope(|scope| {
        let clients: Vec<_> = (0..CLIENTS)
            .map(|number| {
                let client = scope.spawn(move || be_a_client(TcpStream::connect(here)?, number));
                let (stream, _) = listener.accept()?;
                scope.spawn(|| serve(&map, stream));
                Ok(client)
            })
            .collect::<Result<_>>()?;
        clients
            .into_iter()
            .try_for_each(|client| client.join().expect("no client panics"))
    })?;
    assert_eq!(map.len().expect("the map is open"), 0);
    Ok(())
}
