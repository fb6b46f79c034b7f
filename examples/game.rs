// Plays through the library from Rust, by the safe wrapper: document 01's book, which is won, with a display on another thread; a game that is
// lost; a button by the league's rules 1 and 2; buttons that only say that they changed; and what is refused. Every outcome is held to what it must be.
#[allow(dead_code)] // the wrapper offers more than this game needs
mod liftmanger;

use liftmanger::{Answer, Code, Game, GameState, MouseState, Pointer, Refusal, Settings, Step, View};

/// The display: it gets a view, and prints it.
fn display(view: View<'_>) {
    println!("{:?} {:?}, {} events, {} flags", view.game, view.mouse, view.events, view.flag);
    for row in view.shown.chunks(usize::from(view.settings.columns)) {
        let cells: Vec<String> = row.iter().map(u8::to_string).collect();
        println!("{}", cells.join(" "));
    }
}

fn by_hand(rows: u8, columns: u8) -> Settings {
    Settings { rows, columns, mode: 0, question: false, rules: 1 }
}

/// The buzzer: one tick for each cell that the event opened.
fn buzz(step: Step) -> Step {
    if step.opened > 0 {
        println!("{}", vec!["tick"; step.opened as usize].join(" "));
    }
    step
}

fn at_no_cell(number: u32) -> Refusal {
    Refusal { number, place: None }
}

fn won() -> Result<(), Refusal> {
    let mut game = Game::<3, 1, 32>::new(by_hand(1, 3), &[[0, 1]])?;
    let fresh = game.view().settings;
    assert!(game.over().is_none(), "the secrets of a game that runs");
    let left = Pointer::Cell(0, 0);
    assert_eq!(game.step(Code::Lc, left), Ok(Step { answer: Answer::Nothing, opened: 0 }));
    assert_eq!(game.step(Code::Lr, left), Ok(Step { answer: Answer::Opened, opened: 1 }));
    // Two cores: while the display's thread has the view, the game is not stepped; when it is done, the game is this thread's again.
    std::thread::scope(|s| {
        let view = game.view();
        s.spawn(move || display(view));
    });
    let open = game.view().open();
    game.step_flow(&[[2, 0, 1], [3, 0, 1], [0, 0, 2], [1, 0, 2]])?;
    let view = game.view();
    assert_eq!(view.open() - open, 1);
    assert_eq!((view.game, view.mouse, view.events), (GameState::Win, MouseState::UpUp, 6));
    assert_eq!((view.left, view.right, view.doubles, view.lce, view.dce, view.flag), (2, 1, 0, 2, 0, 1));
    assert_eq!(view.shown, [1, 11, 1]);
    display(view);
    let over = game.over().expect("the game is over");
    assert!(over.won);
    assert_eq!((over.rce, over.solved_left, over.solved_chord), (1, 2, 0));
    assert_eq!((over.total_3bv, over.left_to_solve), (2, 0));
    assert_eq!(over.mines, [1, -1, 1]);
    println!("bv {} {}, rce {}", over.total_3bv, over.left_to_solve, over.rce);
    game.reset();
    let view = game.view();
    assert_eq!((view.game, view.events, view.settings), (GameState::Ready, 0, fresh));
    assert_eq!(view.shown, [10; 3]);
    Ok(())
}

fn lost() -> Result<(), Refusal> {
    let mut game = Game::<9, 2, 80>::new(by_hand(3, 3), &[[2, 2]])?;
    let (middle, corner) = (Pointer::Cell(1, 1), Pointer::Cell(2, 0));
    game.step(Code::Lc, middle)?;
    assert_eq!(buzz(game.step(Code::Lr, middle)?), Step { answer: Answer::Opened, opened: 1 });
    assert_eq!(game.step(Code::Rc, corner), Ok(Step { answer: Answer::Flagged, opened: 0 }));
    game.step(Code::Rr, corner)?;
    assert_eq!(buzz(game.step(Code::Mr, middle)?), Step { answer: Answer::Hit, opened: 6 });
    let view = game.view();
    assert_eq!(view.game, GameState::Loss);
    assert_eq!(view.shown, [0, 0, 0, 0, 1, 1, 14, 1, 15]);
    display(view);
    assert_eq!(game.over().map(|o| (o.won, o.solved_chord, o.total_3bv, o.left_to_solve)), Some((false, 1, 1, 1)));
    Ok(())
}

/// A right press on an open cell, and then `r`: by rules 2 a release.
fn released() -> Result<(), Refusal> {
    for (rules, state) in [(1, MouseState::UpDownNotFlag), (2, MouseState::UpUp)] {
        let mut game = Game::<3, 1, 32>::new(Settings { rules, ..by_hand(1, 3) }, &[[0, 0]])?;
        let middle = Pointer::Cell(0, 1);
        for code in [Code::Lc, Code::Lr, Code::Rc, Code::R] {
            game.step(code, middle)?;
        }
        assert_eq!((game.view().mouse, game.view().settings.rules), (state, rules));
        game.reset();
        assert_eq!(game.view().settings.rules, rules);
    }
    Ok(())
}

/// Buttons that only say that they changed, as their presses and releases: `m` turns the middle flag over, and a refused one does not.
fn toggled() -> Result<(), Refusal> {
    let mut game = Game::<9, 2, 80>::new(by_hand(3, 3), &[[2, 2]])?;
    let middle = Pointer::Cell(1, 1);
    for down in [true, false, true] {
        assert_eq!(game.step(Code::M, Pointer::Cell(0, 3)), Err(at_no_cell(30)));
        assert_eq!(game.view().middle, !down);
        assert_eq!(game.step(Code::M, middle), Ok(Step { answer: Answer::Nothing, opened: 0 }));
        assert_eq!(game.view().middle, down);
    }
    assert_eq!(game.step(Code::L, middle), Ok(Step { answer: Answer::Nothing, opened: 0 }));
    assert_eq!(game.step(Code::L, middle), Ok(Step { answer: Answer::Opened, opened: 1 }));
    assert_eq!((game.view().game, game.view().mouse, game.view().events), (GameState::Playing, MouseState::UpUp, 5));
    Ok(())
}

fn refused() -> Result<(), Refusal> {
    assert_eq!(Game::<9, 2, 80>::new(by_hand(65, 3), &[]).err(), Some(at_no_cell(20)));
    assert_eq!(Game::<9, 2, 80>::new(by_hand(3, 4), &[]).err(), Some(at_no_cell(21)));
    assert_eq!(Game::<9, 2, 80>::new(by_hand(3, 3), &[[1, 1], [1, 1]]).err(), Some(at_no_cell(42)));
    assert_eq!(Game::<9, 2, 80>::new(Settings { mode: 6, rules: 3, ..by_hand(3, 3) }, &[]).err(), Some(at_no_cell(25)));
    assert_eq!(Game::<9, 2, 80>::new(Settings { rules: 3, ..by_hand(3, 3) }, &[]).err(), Some(at_no_cell(45)));
    let typed = [0, 0, 0, 0, 2, 1, 0, 1, -1];
    let wrong = Game::<9, 2, 80>::from_board(by_hand(3, 3), typed).err();
    assert_eq!(wrong, Some(Refusal { number: 23, place: Some([1, 1]) }));
    let mut game = liftmanger::Expert::new(by_hand(16, 30), &[[0, 0], [15, 29]])?;
    assert_eq!(game.step(Code::Lc, Pointer::Cell(16, 0)), Err(at_no_cell(30)));
    assert_eq!(game.step(Code::Mv, Pointer::Off), Ok(Step { answer: Answer::Nothing, opened: 0 }));
    assert_eq!(game.view().events, 1);
    game.give_up();
    assert_eq!(game.view().game, GameState::Loss);
    Ok(())
}

fn main() -> Result<(), Refusal> {
    won()?;
    lost()?;
    released()?;
    toggled()?;
    refused()
}
