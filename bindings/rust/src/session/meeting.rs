//! Barriers and channels, made of a lock, conditions and objects: so what they do is recorded as any access is.
use crate::{Error, Session};
use std::panic::Location;

/// # Barriers and channels
///
/// # Errors
/// Each call fails as `Session::locked` does.
impl Session {
    /// Waits at the barrier, which a builder's `barrier` has made, until as many threads have come as it is for. The last one to
    /// come is told true.
    ///
    /// ```
    /// use octet::{Error, Heap};
    ///
    /// let run = Heap::builder().object("left", 0).object("right", 0).barrier("middle", 2).run(|threads| {
    ///     for (own, other) in [("left", "right"), ("right", "left")] {
    ///         threads.spawn(move |session| {
    ///             session.store(session.object(own)?, 1)?;
    ///             session.arrive("middle")?;
    ///             session.load(session.object(other)?)
    ///         });
    ///     }
    /// })?;
    /// assert_eq!(run.values(), [1, 1]);
    /// # Ok::<(), Error>(())
    /// ```
    ///
    /// # Errors
    /// Those of all calls for locks and conditions.
    #[track_caller]
    pub fn arrive(&mut self, barrier: &str) -> Result<bool, Error> {
        let wanted = self.shared.barrier(barrier)?;
        let (here, round) = (self.object(&format!("{barrier}_here"))?, self.object(&format!("{barrier}_round"))?);
        let passed = format!("{barrier}_passed");
        self.standing_at(Location::caller(), |session| {
            session.locked(barrier, |session| {
                let came = session.load(here)? + 1;
                let now = session.load(round)?;
                if came == wanted {
                    session.store(here, 0)?;
                    session.store(round, now + 1)?;
                    session.notify_all(&passed)?;
                    return Ok(true);
                }
                session.store(here, came)?;
                while session.load(round)? == now {
                    session.wait(&passed)?;
                }
                Ok(false)
            })
        })
    }

    /// Sends a value by the channel, which a builder's `channel` has made, and waits while it is full. Answers false, and sends
    /// nothing, where the channel is closed.
    ///
    /// ```
    /// use octet::{Error, Heap};
    ///
    /// let run = Heap::builder().channel("numbers", 2).run(|threads| {
    ///     threads.spawn(|session| {
    ///         for number in 1..=10 {
    ///             session.send("numbers", number)?;
    ///         }
    ///         session.close("numbers")?;
    ///         Ok(0)
    ///     });
    ///     threads.spawn(|session| {
    ///         let mut sum = 0;
    ///         while let Some(number) = session.receive("numbers")? {
    ///             sum += number;
    ///         }
    ///         Ok(sum)
    ///     });
    /// })?;
    /// assert_eq!(run.values(), [0, 55]);
    /// # Ok::<(), Error>(())
    /// ```
    ///
    /// # Errors
    /// Those of all calls for locks and conditions.
    #[track_caller]
    pub fn send(&mut self, channel: &str, value: u64) -> Result<bool, Error> {
        let room = self.shared.channel(channel)?;
        let [first, count, closed] = self.parts(channel)?;
        self.standing_at(Location::caller(), |session| {
            session.locked(channel, |session| {
                loop {
                    if session.load(closed)? != 0 {
                        return Ok(false);
                    }
                    let held = session.load(count)?;
                    if held < room {
                        let cell = (session.load(first)? + held) % room;
                        session.store(session.object(&format!("{channel}_{cell}"))?, value)?;
                        session.store(count, held + 1)?;
                        session.notify_one(&format!("{channel}_filled"))?;
                        return Ok(true);
                    }
                    session.wait(&format!("{channel}_emptied"))?;
                }
            })
        })
    }

    /// Takes the value that was sent first, and waits while there is none. None where the channel is closed and empty.
    ///
    /// ```
    /// let run = octet::Heap::builder().channel("numbers", 1).run(|threads| {
    ///     threads.spawn(|session| {
    ///         session.send("numbers", 3)?;
    ///         session.close("numbers")?;
    ///         Ok(vec![])
    ///     });
    ///     threads.spawn(|session| Ok(vec![session.receive("numbers")?, session.receive("numbers")?]));
    /// })?;
    /// assert_eq!(run.values()[1], [Some(3), None]);
    /// # Ok::<(), octet::Error>(())
    /// ```
    ///
    /// # Errors
    /// Those of all calls for locks and conditions.
    #[track_caller]
    pub fn receive(&mut self, channel: &str) -> Result<Option<u64>, Error> {
        let room = self.shared.channel(channel)?;
        let [first, count, closed] = self.parts(channel)?;
        self.standing_at(Location::caller(), |session| {
            session.locked(channel, |session| {
                loop {
                    let held = session.load(count)?;
                    if held > 0 {
                        let cell = session.load(first)?;
                        let value = session.load(session.object(&format!("{channel}_{cell}"))?)?;
                        session.store(first, (cell + 1) % room)?;
                        session.store(count, held - 1)?;
                        session.notify_one(&format!("{channel}_emptied"))?;
                        return Ok(Some(value));
                    }
                    if session.load(closed)? != 0 {
                        return Ok(None);
                    }
                    session.wait(&format!("{channel}_filled"))?;
                }
            })
        })
    }

    /// Closes the channel: no value is sent any more, and those that were sent may be received.
    ///
    /// ```
    /// let run = octet::Heap::builder().channel("numbers", 1).run(|threads| {
    ///     threads.spawn(|session| {
    ///         session.close("numbers")?;
    ///         session.send("numbers", 3)
    ///     });
    /// })?;
    /// assert_eq!(run.values(), [false]);
    /// # Ok::<(), octet::Error>(())
    /// ```
    ///
    /// # Errors
    /// Those of all calls for locks and conditions.
    #[track_caller]
    pub fn close(&mut self, channel: &str) -> Result<(), Error> {
        let [_, _, closed] = self.parts(channel)?;
        self.standing_at(Location::caller(), |session| {
            session.locked(channel, |session| {
                session.store(closed, 1)?;
                session.notify_all(&format!("{channel}_filled"))?;
                session.notify_all(&format!("{channel}_emptied"))
            })
        })
    }

    // The objects that tell which cell is first, how many are filled, and whether it is closed.
    fn parts(&self, channel: &str) -> Result<[crate::Object; 3], Error> {
        self.shared.channel(channel)?;
        let part = |name: &str| self.object(&format!("{channel}_{name}"));
        Ok([part("first")?, part("count")?, part("closed")?])
    }
}
