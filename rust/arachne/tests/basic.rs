//! Programs like those in docs/rust.md.
use arachne::*;
use std::sync::atomic::*;
use std::sync::Arc;

#[test]
fn one() {
    let rt = Runtime::new(2);
    let task = rt.spawn(async { 6 * 7 });
    assert_eq!(rt.block_on(task).unwrap(), 42);
}

#[test]
fn many_nested() {
    let rt = Runtime::new(3);
    let n = if cfg!(miri) { 50 } else { 20_000 };
    let task = rt.spawn(async move {
        let mut sum = 0u64;
        let mut handles = Vec::new();
        for i in 0..n {
            handles.push(spawn(async move {
                yield_now().await;
                i
            }));
        }
        for handle in handles {
            sum += handle.await.unwrap();
        }
        sum
    });
    assert_eq!(rt.block_on(task).unwrap(), n * (n - 1) / 2);
}

#[test]
fn panics_and_cancels() {
    struct Counted(Arc<AtomicUsize>);
    impl Drop for Counted {
        fn drop(&mut self) {
            self.0.fetch_add(1, Ordering::SeqCst);
        }
    }
    let dropped = Arc::new(AtomicUsize::new(0));
    let rt = Runtime::new(2);
    let d = Counted(dropped.clone());
    let task = rt.spawn(async move {
        let _d = d;
        if true {
            panic!("on purpose");
        }
    });
    assert!(matches!(rt.block_on(task), Err(JoinError::Panicked(_))));
    assert_eq!(dropped.load(Ordering::SeqCst), 1);
    let mut handles = Vec::new();
    for _ in 0..5000 {
        let d = Counted(dropped.clone());
        handles.push(rt.spawn(async move {
            let _d = d;
            std::future::pending::<()>().await
        }));
    }
    let half = handles.split_off(2500);
    drop(half);
    while rt.stats().polls < 1000 {
        std::thread::yield_now();
    }
    drop(rt);
    assert_eq!(dropped.load(Ordering::SeqCst), 5001);
    for handle in handles {
        assert!(matches!(block_on(handle), Err(JoinError::Cancelled)));
    }
}
