// Erased by bindings/rust/erase from crates/service_hall/src/hall_service.rt, sha256 3ff660362c7a41bf3e90e1ec8fa5fafdbb855059682d743576c530fb0e2dcc05.
//! A hall as a service.

use crate::proved::model_asked::event::Event;
use crate::proved::model_asked::reply::Reply;
use crate::proved::model_steps::view::View;
use crate::proved::service_hall::hall::Hall;
use crate::proved::text_player::service::Service;

impl<R> Service<R> for Hall {
    fn apply(&mut self, _rt: &R, event: Event, view: &mut View) -> Reply<()> {
        self.apply_short(event, view)
    }

    fn owner(&mut self, _rt: &R, n: u64) -> Reply<View> {
        Hall::owner(self, n)
    }
}
