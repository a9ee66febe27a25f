//! Frames by TCP: a stream for each two nodes, and a thread for each stream that waits for what comes.
use crate::apart::Carrier;
use std::io::{Error, ErrorKind, Read, Result, Write};
use std::net::{SocketAddr, TcpListener, TcpStream};
use std::sync::mpsc::{channel, Receiver, RecvTimeoutError, Sender};
use std::thread::{sleep, spawn};
use std::time::Duration;

/// How often a node tries to reach another one that doesn't listen yet, and how long it pauses.
const TRIES: u32 = 2000;
const PAUSE: Duration = Duration::from_millis(5);

/// The streams of a node.
pub struct Tcp {
    streams: Vec<Option<TcpStream>>,
    came: Receiver<(u32, Vec<u8>)>,
    // So that there is always one who may send.
    _sender: Sender<(u32, Vec<u8>)>,
}

impl Tcp {
    /// A stream to each other node, whose addresses these are: each node listens, and the greater of two nodes connects and says
    /// which it is.
    ///
    /// ```
    /// use lockrun::{Carrier, Tcp};
    /// use std::net::TcpListener;
    ///
    /// // Two ports that are free now. Each node would be in a process of its own.
    /// let free = || TcpListener::bind("127.0.0.1:0")?.local_addr();
    /// let nodes = [free()?, free()?];
    /// let other = std::thread::spawn(move || Tcp::begin(1, &nodes)?.carry(0, b"frames"));
    /// let mut carrier = Tcp::begin(0, &nodes)?;
    /// assert_eq!(carrier.sleep(None)?, Some((1, b"frames".to_vec())));
    /// other.join().unwrap()?;
    /// # Ok::<(), std::io::Error>(())
    /// ```
    pub fn begin(me: u32, nodes: &[SocketAddr]) -> Result<Tcp> {
        let (sender, came) = channel();
        let mut streams: Vec<Option<TcpStream>> = nodes.iter().map(|_| None).collect();
        let listener = TcpListener::bind(nodes[me as usize])?;
        for node in 0..me {
            let mut stream = connect(nodes[node as usize])?;
            stream.write_all(&me.to_le_bytes())?;
            streams[node as usize] = Some(stream);
        }
        for _ in me as usize + 1..nodes.len() {
            let (mut stream, mut from) = (listener.accept()?.0, [0; 4]);
            stream.read_exact(&mut from)?;
            let from = u32::from_le_bytes(from) as usize;
            *streams.get_mut(from).ok_or(ErrorKind::InvalidData)? = Some(stream);
        }
        for (node, stream) in streams.iter().enumerate() {
            if let Some(stream) = stream {
                stream.set_nodelay(true)?;
                let (stream, sender) = (stream.try_clone()?, sender.clone());
                spawn(move || read_all(node as u32, stream, &sender));
            }
        }
        Ok(Tcp { streams, came, _sender: sender })
    }
}

fn connect(to: SocketAddr) -> Result<TcpStream> {
    for _ in 1..TRIES {
        match TcpStream::connect(to) {
            Err(why) if why.kind() == ErrorKind::ConnectionRefused => sleep(PAUSE),
            stream => return stream,
        }
    }
    TcpStream::connect(to)
}

// Hands on what comes, until the other node closes its stream.
fn read_all(node: u32, mut stream: TcpStream, sender: &Sender<(u32, Vec<u8>)>) {
    let mut part = [0; 1 << 14];
    while let Ok(count @ 1..) = stream.read(&mut part) {
        if sender.send((node, part[..count].to_vec())).is_err() {
            return;
        }
    }
}

impl Carrier for Tcp {
    fn carry(&mut self, to: u32, frames: &[u8]) -> Result<()> {
        match &mut self.streams[to as usize] {
            Some(stream) => stream.write_all(frames),
            None => Err(Error::from(ErrorKind::NotConnected)),
        }
    }

    fn sleep(&mut self, patience: Option<Duration>) -> Result<Option<(u32, Vec<u8>)>> {
        let broken = |_| Error::from(ErrorKind::BrokenPipe);
        match patience {
            None => self.came.recv().map(Some).map_err(broken),
            Some(patience) => match self.came.recv_timeout(patience) {
                Err(RecvTimeoutError::Timeout) => Ok(None),
                came => came.map(Some).map_err(|_| Error::from(ErrorKind::BrokenPipe)),
            },
        }
    }
}
