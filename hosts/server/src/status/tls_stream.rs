//! Connections by TLS, for HTTP.
use krl::Identity;
use krl::operate::PeerCheck;
use openssl::ssl::Ssl;
use std::io::{self, ErrorKind};
use std::pin::Pin;
use std::task::{Context, Poll, ready};
use tokio::io::{AsyncRead, AsyncWrite, ReadBuf};
use tokio::net::TcpStream;
use tokio_openssl::SslStream;

/// The most bytes that come in a handshake: a chain of certificates has a few thousand.
const LONGEST_HANDSHAKE: usize = 1 << 16;

/// The socket under TLS.
#[derive(Debug)]
pub struct Socket {
    stream: TcpStream,
    /// How many bytes may still come.
    left: usize,
}

/// Shakes hands. Returns the connection, and who is at the other end.
pub async fn shake(
    stream: TcpStream,
    (check, ssl): (PeerCheck, Ssl),
) -> io::Result<(SslStream<Socket>, Identity)> {
    let mut stream = SslStream::new(ssl, Socket { stream, left: LONGEST_HANDSHAKE })?;
    let shaken = Pin::new(&mut stream).do_handshake().await;
    shaken.map_err(|error| check.why_refused(stream.ssl(), &error))?;
    let peer = check.peer(stream.ssl())?;
    stream.get_mut().left = usize::MAX;
    Ok((stream, peer))
}

impl AsyncRead for Socket {
    fn poll_read(
        mut self: Pin<&mut Self>,
        context: &mut Context<'_>,
        room: &mut ReadBuf<'_>,
    ) -> Poll<io::Result<()>> {
        if self.left == 0 {
            let error = io::Error::new(ErrorKind::InvalidData, "the handshake does not end");
            return Poll::Ready(Err(error));
        }
        let before = room.filled().len();
        ready!(Pin::new(&mut self.stream).poll_read(context, room))?;
        self.left = self.left.saturating_sub(room.filled().len() - before);
        Poll::Ready(Ok(()))
    }
}

impl AsyncWrite for Socket {
    fn poll_write(
        mut self: Pin<&mut Self>,
        context: &mut Context<'_>,
        bytes: &[u8],
    ) -> Poll<io::Result<usize>> {
        Pin::new(&mut self.stream).poll_write(context, bytes)
    }

    fn poll_flush(mut self: Pin<&mut Self>, context: &mut Context<'_>) -> Poll<io::Result<()>> {
        Pin::new(&mut self.stream).poll_flush(context)
    }

    fn poll_shutdown(mut self: Pin<&mut Self>, context: &mut Context<'_>) -> Poll<io::Result<()>> {
        Pin::new(&mut self.stream).poll_shutdown(context)
    }
}

#[cfg(test)]
mod tests {
    use super::*;
    use krl::TlsConfig;
    use std::path::Path;
    use std::process::Command;
    use tokio::io::{AsyncReadExt, AsyncWriteExt};
    use tokio::net::TcpListener;

    fn config(folder: &Path, holder: &str) -> TlsConfig {
        let script = concat!(env!("CARGO_MANIFEST_DIR"), "/../packaging/certificates");
        assert!(Command::new(script).arg(folder).arg(holder).status().unwrap().success());
        let [certificate, key] = ["crt", "key"].map(|kind| folder.join(format!("{holder}.{kind}")));
        TlsConfig::from_files(folder.join("authority.crt"), certificate, key).unwrap()
    }

    /// Two ends of a connection: that of a server, and another one.
    async fn pair() -> (TcpStream, TcpStream) {
        let listener = TcpListener::bind("127.0.0.1:0").await.unwrap();
        let other = TcpStream::connect(listener.local_addr().unwrap()).await.unwrap();
        (listener.accept().await.unwrap().0, other)
    }

    #[tokio::test]
    async fn more_than_a_hand_shake_comes_after_it() {
        let folder = tempfile::tempdir().unwrap();
        let [shown, operator] = ["server", "operator"].map(|holder| config(folder.path(), holder));
        let (ours, theirs) = pair().await;
        let server = shake(ours, PeerCheck::of_client(&shown).unwrap());
        let client = shake(theirs, PeerCheck::of_server(&operator).unwrap());
        let (server, client) = tokio::join!(server, client);
        let ((mut server, peer), (mut client, _)) = (server.unwrap(), client.unwrap());
        assert!(peer.is_operator());
        let sent = vec![7; 4 * LONGEST_HANDSHAKE];
        let sends = async {
            client.write_all(&sent).await.unwrap();
            client.shutdown().await.unwrap();
        };
        let mut came = Vec::new();
        let ((), count) = tokio::join!(sends, server.read_to_end(&mut came));
        assert_eq!((count.unwrap(), came), (sent.len(), sent));
    }

    #[tokio::test]
    async fn a_hand_shake_that_does_not_end_is_refused() {
        let folder = tempfile::tempdir().unwrap();
        let (ours, mut theirs) = pair().await;
        let session = PeerCheck::of_client(&config(folder.path(), "server")).unwrap();
        // A Hello of 126,976 bytes, in records.
        let record = [&[22, 3, 1, 0x40, 0][..], &[1, 1, 0xf0, 0], &[0; 0x3ffc]].concat();
        let next = [&[22, 3, 1, 0x40, 0][..], &[0; 0x4000]].concat();
        let sends = async {
            let _ = theirs.write_all(&[record, next.repeat(6)].concat()).await;
        };
        let (refused, ()) = tokio::join!(shake(ours, session), sends);
        let refused = refused.unwrap_err().to_string();
        assert!(refused.contains("the handshake does not end"), "{refused}");
    }
}
