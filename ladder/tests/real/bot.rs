//! A bot that walks round a square, with a thread for each connection and the standard library
//! alone: bot PORT
use std::io::{BufRead, BufReader, Read, Result, Write};
use std::net::{TcpListener, TcpStream};

const STEPS: [&str; 4] = ["up", "left", "down", "right"];

fn serve(stream: TcpStream) -> Result<()> {
    let mut to = stream.try_clone()?;
    let mut from = BufReader::new(stream);
    loop {
        let (mut first, mut line, mut length) = (String::new(), String::new(), 0);
        if from.read_line(&mut first)? == 0 {
            return Ok(());
        }
        while from.read_line(&mut line)? > 2 {
            if let Some(value) = line.to_lowercase().strip_prefix("content-length:") {
                length = value.trim().parse().unwrap_or(0);
            }
            line.clear();
        }
        let mut bytes = vec![0; length];
        from.read_exact(&mut bytes)?;
        let mut body = String::from("{\"apiversion\":\"1\"}");
        if first.contains("/move ") {
            body = format!("{{\"move\":\"{}\"}}", STEPS[turn_of(&bytes) % 4]);
        }
        write!(to, "HTTP/1.1 200 OK\r\nContent-Length: {}\r\n\r\n{}", body.len(), body)?;
    }
}

fn turn_of(state: &[u8]) -> usize {
    let text = String::from_utf8_lossy(state);
    let behind = text.split("\"turn\":").nth(1).unwrap_or("0");
    let digits = behind.trim_start().split(|it: char| !it.is_ascii_digit()).next();
    digits.and_then(|it| it.parse().ok()).unwrap_or(0)
}

fn main() -> Result<()> {
    let port = std::env::args().nth(1).expect("a port");
    for stream in TcpListener::bind(format!("127.0.0.1:{port}"))?.incoming() {
        let stream = stream?;
        std::thread::spawn(move || serve(stream));
    }
    Ok(())
}
