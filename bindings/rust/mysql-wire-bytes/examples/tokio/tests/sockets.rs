//! Packets through a pair of sockets.

use bytes::Bytes;
use futures_util::{SinkExt, StreamExt};
use mysql_wire_bytes::proto::codec::error::PacketCodecError;
use mysql_wire_tokio_example::Packets;
use std::future::Future;
use std::io::ErrorKind;
use tokio::io::AsyncWriteExt;
use tokio::net::UnixStream;
use tokio_util::codec::Framed;

const LENGTHS: [usize; 5] = [0, 1, 4000, 70_000, (1 << 24) + 1];

fn run<T>(future: impl Future<Output = T>) -> T {
    tokio::runtime::Builder::new_current_thread().enable_io().build().unwrap().block_on(future)
}

fn packets() -> Packets {
    let mut packets = Packets::default();
    packets.codec.max_allowed_packet = 1 << 25;
    packets
}

#[test]
fn what_is_sent_comes() {
    run(async {
        let (client, server) = UnixStream::pair().unwrap();
        let (mut client, mut server) = (Framed::new(client, packets()), Framed::new(server, packets()));
        let sends = async {
            for len in LENGTHS {
                client.send(Bytes::from(vec![b'x'; len])).await.unwrap();
            }
            client.next().await.unwrap().unwrap()
        };
        let receives = async {
            for len in LENGTHS {
                assert!(server.next().await.unwrap().unwrap() == vec![b'x'; len]);
            }
            server.send(Bytes::from_static(b"\0")).await.unwrap();
        };
        let (answer, ()) = futures_util::future::join(sends, receives).await;
        assert_eq!(answer, b"\0".as_slice());
        drop(client);
        assert!(server.next().await.is_none());
    });
}

#[test]
fn what_is_refused_comes_as_an_error() {
    run(async {
        let (mut client, server) = UnixStream::pair().unwrap();
        client.write_all(b"\x01\0\0\0a\x01\0\0\x07b").await.unwrap();
        let mut server = Framed::new(server, packets());
        assert_eq!(server.next().await.unwrap().unwrap(), b"a".as_slice());
        let refusal = server.next().await.unwrap();
        assert!(matches!(refusal, Err(PacketCodecError::PacketsOutOfSync)));
    });
}

#[test]
fn what_the_socket_refuses_comes_as_an_error() {
    run(async {
        let (mut client, server) = UnixStream::pair().unwrap();
        client.write_all(b"\x09\0\0\0a").await.unwrap();
        drop(client);
        let mut server = Framed::new(server, packets());
        // (tokio's own error, of bytes that are left at the end of a stream)
        let refusal = server.next().await.unwrap();
        assert!(matches!(refusal, Err(PacketCodecError::Io(error)) if error.kind() == ErrorKind::Other));
        let refusal = server.send(Bytes::from_static(b"x")).await;
        assert!(matches!(refusal, Err(PacketCodecError::Io(error)) if error.kind() == ErrorKind::BrokenPipe));
    });
}
