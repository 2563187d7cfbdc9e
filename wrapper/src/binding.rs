//! How to speak to a data server.

use crate::device::{part, Device, Version, Versions};
use crate::layout::Layout;
use crate::numbers::{MirrorNumber, StripeNumber};
use crate::raw;
use crate::refusal::{accepted, Refusal};

/// As whom I/O goes to a data server.
#[derive(Clone, Copy, Debug, PartialEq, Eq)]
pub enum Identity<'a> {
    /// Tightly coupled: with this stateid.
    Stateid([u8; 16]),
    /// Loosely coupled: as this user and group.
    Owner { user: &'a [u8], group: &'a [u8] },
}

#[derive(Clone, Copy, Debug, PartialEq, Eq)]
pub struct Binding<'a> {
    /// The number of the device's version entry, from 0.
    pub entry: u32,
    pub version: Version,
    pub filehandle: &'a [u8],
    pub identity: Identity<'a>,
}

impl<'a> Layout<'a> {
    /// Binds the data server of a mirror and a stripe to its device, in the first version of it that the client speaks.
    pub fn bind(
        &self,
        mirror: MirrorNumber,
        stripe: StripeNumber,
        device: &Device,
        supported: Versions,
    ) -> Result<Binding<'a>, Refusal> {
        let body = self.body;
        let bound = raw::bind(body, mirror.0, stripe.0, device.body, &device.id.0, supported.bits());
        accepted(bound.refusal)?;
        let version = Version::of(bound.version);
        let identity = if version.tight {
            Identity::Stateid(*body[bound.stateid..].first_chunk().expect("a stateid has 16 bytes"))
        } else {
            Identity::Owner { user: part(body, bound.user), group: part(body, bound.group) }
        };
        Ok(Binding { entry: bound.entry, version, filehandle: part(body, bound.filehandle), identity })
    }
}
