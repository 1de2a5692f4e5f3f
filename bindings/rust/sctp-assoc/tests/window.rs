//! A read that opens the receive window, by either profile.
mod support;

use sctp_assoc::{Config, Error, PayloadType, Profile};
use support::{pass_on, Link};

/// A message leaves less than half of the receive buffer, until it is read. The peer knows of that at once or not.
fn window_behind_a_read(profile: Profile) -> Result<u32, Error> {
    let mut config = Config::default();
    config.profile = profile;
    config.max_receive_buffer_size = 1500;
    let mut link = Link::established(&config)?;
    link.ends[0].open_stream(1, PayloadType::Binary)?.write(&[7; 1000])?;
    link.settle()?;
    assert_eq!(link.ends[0].path().peer_window, 500);
    assert!(link.ends[1].stream(1).read_vec()?.is_some());
    let [client, server] = &mut link.ends;
    assert_eq!(pass_on(server, client, link.now)?, profile == Profile::Rfc);
    Ok(client.path().peer_window)
}

#[test]
fn a_window_that_opens_is_told_by_the_rules_of_the_rfcs() -> Result<(), Error> {
    assert_eq!(Config::default().profile, Profile::Rfc);
    assert_eq!(window_behind_a_read(Profile::Rfc)?, 1500);
    assert_eq!(window_behind_a_read(Profile::Port)?, 500);
    Ok(())
}
