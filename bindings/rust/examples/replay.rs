//! Replays the games of a file that tests/library wrote, by the calls on records and by those on
//! games. Each board has to have the record of the file.

use arena_rules::*;

/// The bytes of the file that are still to be read.
struct Input<'a>(&'a [u8]);

impl<'a> Input<'a> {
    fn take(&mut self, count: usize) -> &'a [u8] {
        let (taken, rest) = self.0.split_at(count);
        self.0 = rest;
        taken
    }

    fn number(&mut self) -> usize {
        u32::from_le_bytes(self.take(4).try_into().unwrap()) as usize
    }

    fn words(&mut self, count: usize) -> Vec<u32> {
        let bytes = self.take(4 * count);
        let word = |bytes: &[u8]| u32::from_le_bytes(bytes.try_into().unwrap());
        bytes.chunks(4).map(word).collect()
    }

    fn cells(&mut self, count: usize) -> Vec<Cell> {
        let bytes = self.take(2 * count);
        bytes
            .chunks(2)
            .map(|at| Cell { x: at[0], y: at[1] })
            .collect()
    }

    fn record(&mut self) -> &'a [u8] {
        let count = self.number();
        self.take(count)
    }
}

fn replay<G: Game>(input: &mut Input<'_>, settings: Settings, foods: usize, words: usize) -> usize {
    let (starts, food) = (input.cells(settings.seats.into()), input.cells(foods));
    let (turns, first) = (input.number(), input.record());
    let mut record = start(&Setup {
        mode: settings.mode,
        width: settings.width,
        height: settings.height,
        starts: &starts,
        food: &food,
        min_food: settings.min_food,
        chance: settings.chance,
        hazards: None,
    })
    .unwrap();
    let mut games = Games::<G>::new(1);
    let games = games.as_mut_slice();
    assert_eq!(food.len(), foods);
    let first_cells = Starts {
        cells: &starts,
        food: &food,
        which: None,
    };
    assert_eq!(start_games(games, settings, &first_cells), Ok(1));
    assert_eq!((&record[..], &games[0].record()[..]), (first, first));
    for number in 0..turns {
        let (moves, words) = (input.take(settings.seats.into()), input.words(words));
        if number == turns / 2 {
            games[0].load(&record).unwrap();
        }
        assert_eq!(is_over(&record), Ok(false));
        record = turn(&record, moves, &words, Map::default()).unwrap();
        step(games, moves, &words).unwrap();
        let wanted = input.record();
        assert_eq!((&record[..], &games[0].record()[..]), (wanted, wanted));
    }
    assert_eq!(is_legal(&record), Ok(true));
    turns
}

fn main() {
    check_layout();
    let bytes = std::fs::read(std::env::args().nth(1).expect("a file of games")).unwrap();
    let mut input = Input(&bytes);
    let (games, mut turns) = (input.number(), 0);
    for _ in 0..games {
        let head = input.take(8);
        let head: [u8; 8] = head.try_into().unwrap();
        let [mode, width, height, seats, min_food, chance, foods, words] = head;
        let mode =
            [Mode::Standard, Mode::Solo, Mode::Constrictor, Mode::Wrapped][usize::from(mode)];
        let settings = Settings {
            mode,
            width,
            height,
            seats,
            min_food,
            chance,
        };
        let (foods, words) = (usize::from(foods), usize::from(words));
        turns += if width.max(height) <= 11 {
            replay::<SmallGame>(&mut input, settings, foods, words)
        } else {
            replay::<LargeGame>(&mut input, settings, foods, words)
        };
    }
    println!("{games} games, {turns} turns agree");
}
