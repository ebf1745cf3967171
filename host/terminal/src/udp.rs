//! Sockets: one that is made for sending, one that listens; and reading all that has come.
use std::io::{self, ErrorKind};
use std::net::{Ipv4Addr, Ipv6Addr, SocketAddr, UdpSocket};

/// A socket of the address's family. It is not connected: a receiver that is not there yet is no fault.
pub fn socket_to(to: SocketAddr) -> io::Result<UdpSocket> {
    let any: SocketAddr = if to.is_ipv4() { (Ipv4Addr::UNSPECIFIED, 0).into() } else { (Ipv6Addr::UNSPECIFIED, 0).into() };
    ready(UdpSocket::bind(any)?)
}

pub fn socket_at(listen: SocketAddr) -> io::Result<UdpSocket> {
    ready(UdpSocket::bind(listen)?)
}

fn ready(socket: UdpSocket) -> io::Result<UdpSocket> {
    socket.set_nonblocking(true)?;
    Ok(socket)
}

/// So many are taken at once. Nobody who sends more can keep the program from telling that what it shows has become old.
const AT_ONCE: usize = 2_000;

/// The datagrams that have come. The buffer takes the longest that there are: on some systems one that is too long for it is an error.
pub fn drain(socket: &UdpSocket, mut datagram: impl FnMut(&[u8], SocketAddr)) -> io::Result<()> {
    let mut buffer = [0; 1 << 16];
    for _ in 0..AT_ONCE {
        match socket.recv_from(&mut buffer) {
            Ok((length, from)) => datagram(&buffer[..length], from),
            Err(problem) => match problem.kind() {
                ErrorKind::WouldBlock => return Ok(()),
                // Some systems tell here that an earlier datagram found nobody.
                ErrorKind::ConnectionRefused | ErrorKind::ConnectionReset | ErrorKind::Interrupted => {}
                _ => return Err(problem),
            },
        }
    }
    Ok(())
}

#[cfg(test)]
mod tests {
    use super::*;

    #[test]
    fn a_flood_is_taken_in_parts() {
        let listening = socket_at((Ipv4Addr::LOCALHOST, 0).into()).unwrap();
        let (to, sending) = (listening.local_addr().unwrap(), socket_to((Ipv4Addr::LOCALHOST, 9).into()).unwrap());
        let mut taken = Vec::new();
        // Ever more comes while it is taken.
        drain(&listening, |_, _| unreachable!("nothing came")).unwrap();
        sending.send_to(&[1; 5_000], to).unwrap();
        while taken.is_empty() {
            drain(&listening, |bytes, _| {
                taken.push(bytes.len());
                sending.send_to(b"more", to).unwrap();
            })
            .unwrap();
        }
        assert_eq!((taken.len(), taken[0], taken[1]), (AT_ONCE, 5_000, 4));
    }
}
