//! Stand-in for the crate thingbuf: a first-in first-out queue of fixed capacity.

pub mod mpsc {
    use std::collections::VecDeque;
    use std::sync::{Arc, Mutex};

    struct Queue<T> {
        items: Mutex<VecDeque<T>>,
        capacity: usize,
    }

    /// The queue is full; the item was dropped.
    pub struct Full;

    /// The queue is empty.
    pub struct Empty;

    pub struct Sender<T>(Arc<Queue<T>>);

    pub struct Receiver<T>(Arc<Queue<T>>);

    pub fn channel<T>(capacity: usize) -> (Sender<T>, Receiver<T>) {
        let queue = Arc::new(Queue {
            items: Mutex::new(VecDeque::new()),
            capacity,
        });
        (Sender(queue.clone()), Receiver(queue))
    }

    impl<T> Sender<T> {
        pub fn try_send(&self, item: T) -> Result<(), Full> {
            let mut items = self.0.items.lock().unwrap();
            if items.len() == self.0.capacity {
                return Err(Full);
            }
            items.push_back(item);
            Ok(())
        }

        /// Look at the queued items, the first sent first.
        pub fn peek<R>(&self, look: impl FnMut(&T) -> R) -> Vec<R> {
            self.0.items.lock().unwrap().iter().map(look).collect()
        }
    }

    impl<T> Receiver<T> {
        pub fn try_recv(&self) -> Result<T, Empty> {
            self.0.items.lock().unwrap().pop_front().ok_or(Empty)
        }

        /// Look at the queued items, the first sent first.
        pub fn peek<R>(&self, look: impl FnMut(&T) -> R) -> Vec<R> {
            self.0.items.lock().unwrap().iter().map(look).collect()
        }
    }
}
