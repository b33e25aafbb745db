//! Document 01's examples.

use crate::bound::{bound, bound_of, interference, margin};
use crate::dispatcher::{tick, Job, Phase, State};
use crate::files::*;
use crate::planner::{layout, room};
use crate::programs::{lister, replay, runner};
use crate::records::*;

/// A table of equal tasks.
fn same(cores: usize, count: usize, (cost, deadline, period): (u32, u32, u32)) -> Table {
    Table {
        cores,
        tasks: vec![
            Task {
                cost,
                deadline,
                period
            };
            count
        ],
    }
}

/// The same table with one more task.
fn with(mut table: Table, (cost, deadline, period): (u32, u32, u32)) -> Table {
    table.tasks.push(Task {
        cost,
        deadline,
        period,
    });
    table
}

/// A table's file.
fn table_file(table: &Table) -> Vec<u8> {
    let mut buffer = [0; 2048];
    let length = write_table(table, &mut buffer).unwrap();
    buffer[..length].to_vec()
}

/// The file of a table's plan.
fn plan_file(table: &Table) -> Vec<u8> {
    let mut buffer = [0; 4096];
    let length = write_plan(&layout(table).unwrap(), &mut buffer).unwrap();
    buffer[..length].to_vec()
}

/// A replay's input: a plan file and ticks of finished and released tasks.
fn replay_input(plan: &[u8], ticks: &[(&[u8], &[u8])]) -> Vec<u8> {
    let mut bytes = (plan.len() as u16).to_be_bytes().to_vec();
    bytes.extend(plan);
    for (finished, released) in ticks {
        bytes.push(finished.len() as u8);
        bytes.extend(*finished);
        bytes.push(released.len() as u8);
        bytes.extend(*released);
    }
    bytes
}

/// The listing of P3.
const P3: &str = "cores 2 tasks 3\n0 0 whole 6\n1 1 whole 6\n2 0 share 4\n2 1 share 2\n";

fn three_sixes() -> Table {
    same(2, 3, (6, 10, 10))
}

#[test]
fn p1_interference() {
    assert_eq!(
        [3, 12, 14, 20].map(|length| interference(4, 10, length)),
        [3, 6, 8, 8]
    );
    assert_eq!(interference(4, 10, -1), 0);
}

#[test]
fn p2_limits() {
    assert_eq!(room(4, 10, 10), 4);
    assert_eq!(room(4, 10, 9), 2);
    assert_eq!(room(5, 10, 9), 2);
}

#[test]
fn p3_listing() {
    assert_eq!(lister(&table_file(&three_sixes())), P3);
}

#[test]
fn p4_a_small_task_fits_whole() {
    let table = with(three_sixes(), (2, 10, 10));
    let text = P3.replace("tasks 3", "tasks 4") + "3 1 whole 2\n";
    assert_eq!(lister(&table_file(&table)), text);
}

#[test]
fn p5_a_larger_one_is_refused() {
    let table = with(three_sixes(), (3, 10, 10));
    assert_eq!(lister(&table_file(&table)), "refused 7 task 3\n");
}

#[test]
fn p6_three_full_cores() {
    let table = same(3, 5, (6, 10, 10));
    let text = "cores 3 tasks 5\n0 0 whole 6\n1 1 whole 6\n2 2 whole 6\n\
                3 0 share 4\n3 1 share 2\n4 1 share 2\n4 2 share 4\n";
    assert_eq!(lister(&table_file(&table)), text);
    let full = with(table, (1, 10, 10));
    assert_eq!(lister(&table_file(&full)), "refused 7 task 5\n");
}

#[test]
fn p7_a_single_share() {
    let table = with(same(1, 2, (2, 5, 5)), (1, 6, 6));
    assert_eq!(
        lister(&table_file(&table)),
        "cores 1 tasks 3\n0 0 whole 2\n1 0 whole 2\n2 0 share 1\n"
    );
}

#[test]
fn p8_the_later_share_runs_first() {
    let plan = layout(&same(3, 5, (6, 10, 10))).unwrap();
    let mut state = State::fresh(&plan);
    let mut on_core_1 = Vec::new();
    for time in 0..10 {
        let released: Vec<TaskNo> = if time == 0 {
            (0..5).map(TaskNo).collect()
        } else {
            Vec::new()
        };
        state = tick(&plan, &state, &[], &released).unwrap();
        on_core_1.push(state.last[1].unwrap().0);
    }
    assert_eq!(on_core_1, [4, 4, 1, 1, 3, 3, 1, 1, 1, 1]);
}

#[test]
fn the_run_of_20_ticks() {
    let ten = "2 1\n2 1\n2 1\n2 1\n0 2\n0 2\n0 1\n0 1\n0 -\n0 -\n";
    let text = format!("{ten}{ten}late 0 preemptions 4\n");
    assert_eq!(runner(&plan_file(&three_sixes())), text);
}

#[test]
fn ranges_of_period_and_count() {
    let longest = same(1, 1, (1, 1_000_000, 1_000_000));
    assert_eq!(read_table(&table_file(&longest), Absent::Four), Ok(longest));
    let mut file = table_file(&same(1, 1, (1, 2, 2)));
    file[15..19].copy_from_slice(&1_000_001_u32.to_be_bytes());
    assert_eq!(lister(&file), "refused 5 at 4\n");
    let most = same(16, 64, (1, 2, 2));
    let mut file = table_file(&most);
    assert_eq!(read_table(&file, Absent::Eight), Ok(most));
    let place = file.len();
    file.extend([2, 0, 0]);
    assert_eq!(lister(&file), format!("refused 6 at {place}\n"));
}

#[test]
fn the_table_file_of_19_bytes() {
    let file = [1, 0, 1, 2, 2, 0, 12, 0, 0, 0, 6, 0, 0, 0, 10, 0, 0, 0, 10];
    assert_eq!(table_file(&same(2, 1, (6, 10, 10))), file);
    for absent in [Absent::Four, Absent::Eight] {
        let bare = same(absent.cores(), 1, (6, 10, 10));
        assert_eq!(read_table(&file[4..], absent), Ok(bare));
        assert_eq!(read_table(&file, absent), Ok(same(2, 1, (6, 10, 10))));
        assert_eq!(in_force(&file, &[], absent), &file[4..]);
        assert_eq!(in_force(&[9], &file[4..], absent), &file[4..]);
        assert_eq!(which_in_force(&[9], &[1], absent), Err(at(1, 0)));
        assert!(in_force(&[9], &[1], absent).is_empty());
        assert_eq!(cores_in_force(&file, &[], absent), Ok(2));
        assert_eq!(cores_in_force(&[9], &file[4..], absent), Ok(absent.cores()));
        assert_eq!(cores_in_force(&[9], &[1], absent), Err(at(1, 0)));
    }
    assert!(lister(&file[4..]).starts_with("cores 8 tasks 1\n"));
}

#[test]
fn files_are_refused_at_the_first_bad_field() {
    let says = |bytes: &[u8]| lister(bytes);
    assert_eq!(says(&[]), "refused 6 at 0\n");
    assert_eq!(says(&[1, 0, 1, 2]), "refused 6 at 4\n");
    assert_eq!(says(&[9, 9]), "refused 1 at 0\n");
    assert_eq!(says(&[9, 9, 9]), "refused 2 at 0\n");
    assert_eq!(says(&[2, 1, 12]), "refused 3 at 0\n");
    assert_eq!(says(&[2, 0, 12, 0]), "refused 1 at 0\n");
    assert_eq!(says(&[1, 0, 1, 17]), "refused 4 at 0\n");
    assert_eq!(says(&[1, 0, 1, 2, 1, 0, 1, 2]), "refused 2 at 4\n");
    assert_eq!(says(&plan_file(&three_sixes())), "refused 2 at 49\n");
    assert_eq!(runner(&table_file(&three_sixes())), "refused 8\n");
    assert_eq!(runner(&[3, 0, 7, 0, 0, 0, 0, 0, 0, 1]), "refused 6 at 0\n");
    let mut late_task = plan_file(&three_sixes());
    late_task.extend([2, 0, 12]);
    assert_eq!(runner(&late_task), "refused 2 at 89\n");
}

#[test]
fn plans_without_the_shape() {
    let good = plan_file(&three_sixes());
    let changed = |place: usize, byte: u8| {
        let mut file = good.clone();
        file[place] = byte;
        runner(&file)
    };
    for (place, byte) in [
        (52, 1),
        (53, 2),
        (54, 1),
        (54, 2),
        (58, 5),
        (73, 1),
        (78, 3),
        (83, 0),
    ] {
        let says = changed(place, byte);
        let is_share = (place, byte) == (54, 1);
        assert_eq!(says == "refused 8\n", !is_share, "{place} {byte}");
    }
    let mut long = good.clone();
    for _ in 0..125 {
        long.extend(&good[79..]);
    }
    assert_eq!(runner(&long), "refused 8\n");
    long.push(7);
    assert_eq!(runner(&long), format!("refused 1 at {}\n", long.len() - 1));
}

#[test]
fn buffers_of_a_writer() {
    let table = same(2, 1, (6, 10, 10));
    let mut short = [7; 18];
    let length_needed = Refusal {
        number: 13,
        tells: Tells::Length(19),
    };
    assert_eq!(write_table(&table, &mut short), Err(length_needed));
    assert_eq!(short, [7; 18]);
    let mut long = [7; 25];
    assert_eq!(write_table(&table, &mut long), Ok(19));
    assert_eq!(long[19..], [7; 6]);
    assert_eq!(
        write_table(&same(0, 0, (0, 0, 0)), &mut long),
        Err(of_count(4, 0))
    );
    assert_eq!(
        write_table(&same(1, 65, (0, 0, 0)), &mut long),
        Err(of_count(6, 65))
    );
    assert_eq!(
        write_table(&with(table, (3, 2, 2)), &mut long),
        Err(of_task(5, TaskNo(1)))
    );
}

#[test]
fn bounds_and_margins() {
    let plan = layout(&three_sixes()).unwrap();
    let tasks = &plan.table.tasks;
    let bounds: Vec<i64> = (0..4).map(|i| bound(tasks, &plan.pieces, i)).collect();
    assert_eq!(bounds, [10, 8, 4, 2]);
    let margins: Vec<i64> = (0..4).map(|i| margin(tasks, &plan.pieces, i)).collect();
    assert_eq!(margins, [0, 2, 6, 4]);
    assert_eq!(bound_of(&plan, 3), Ok(2));
    assert_eq!(bound_of(&plan, 4), Err(bare(8)));
}

#[test]
fn finishes_and_releases() {
    let plan = plan_file(&same(2, 2, (2, 3, 3)));
    let says = |ticks: &[(&[u8], &[u8])]| replay(&replay_input(&plan, ticks));
    assert_eq!(says(&[]), "late 0 preemptions 0\n");
    assert_eq!(
        says(&[(&[0], &[])]),
        "refused 10 task 0\nlate 0 preemptions 0\n"
    );
    assert_eq!(
        says(&[(&[9, 200], &[])]),
        "refused 10 task 9\nlate 0 preemptions 0\n"
    );
    assert_eq!(
        says(&[(&[], &[0, 9, 8])]),
        "refused 11 task 8\nlate 0 preemptions 0\n"
    );
    assert_eq!(
        says(&[(&[], &[0]), (&[0], &[0]), (&[0], &[])]),
        "0 -\nrefused 11 task 0\n- -\nlate 0 preemptions 0\n"
    );
}

#[test]
fn replays_that_end_badly() {
    let plan = plan_file(&three_sixes());
    assert_eq!(replay(&[]), "refused 1 at 0\n");
    assert_eq!(replay(&[0, 5, 1, 2, 3, 4]), "refused 1 at 0\n");
    assert_eq!(replay(&[0, 0]), "refused 6 at 0\n");
    let mut input = replay_input(&plan, &[(&[], &[0, 1, 2])]);
    let place = input.len();
    input.push(65);
    assert_eq!(
        replay(&input),
        format!("2 1\nrefused 3 at {place}\nlate 0 preemptions 0\n")
    );
    input[place] = 1;
    assert_eq!(
        replay(&input),
        format!("2 1\nrefused 1 at {place}\nlate 0 preemptions 0\n")
    );
    input.extend([2, 65]);
    assert_eq!(
        replay(&input),
        format!("2 1\nrefused 3 at {place}\nlate 0 preemptions 0\n")
    );
}

#[test]
fn late_jobs_and_refusal_12() {
    let mut file = table_file(&same(1, 2, (2, 2, 3)));
    file.extend([3, 0, 7, 0, 0, 0, 0, 0, 0, 2, 3, 0, 7, 1, 0, 0, 0, 0, 0, 2]);
    let ticks: [(&[u8], &[u8]); 5] = [
        (&[], &[0, 1]),
        (&[], &[]),
        (&[], &[]),
        (&[], &[0, 1]),
        (&[1], &[1]),
    ];
    assert_eq!(
        replay(&replay_input(&file, &ticks)),
        "0\n0\n1\nrefused 12 task 1\n1\nlate 1 preemptions 0\n"
    );
}

#[test]
fn states_that_are_not_well_made() {
    let plan = layout(&three_sixes()).unwrap();
    let fresh = State::fresh(&plan);
    let refused = |change: &dyn Fn(&mut State)| {
        let mut state = fresh.clone();
        change(&mut state);
        tick(&plan, &state, &[], &[]).err()
    };
    let active = Job {
        phase: Phase::Active,
        age: 10,
        piece: 0,
        ran: 5,
        late: true,
    };
    assert_eq!(refused(&|s| s.jobs[0] = active), None);
    assert_eq!(
        refused(&|s| s.jobs[0] = Job { age: 11, ..active }),
        Some(bare(9))
    );
    assert_eq!(
        refused(&|s| s.jobs[0] = Job { age: 0, ..active }),
        Some(bare(9))
    );
    assert_eq!(
        refused(&|s| s.jobs[0] = Job { ran: 6, ..active }),
        Some(bare(9))
    );
    assert_eq!(
        refused(&|s| s.jobs[0] = Job { piece: 1, ..active }),
        Some(bare(9))
    );
    assert_eq!(
        refused(&|s| s.jobs[2] = Job {
            piece: 1,
            ran: 1,
            ..active
        }),
        None
    );
    assert_eq!(
        refused(&|s| s.jobs[2] = Job {
            piece: 1,
            ran: 2,
            ..active
        }),
        Some(bare(9))
    );
    assert_eq!(refused(&|s| s.jobs[0].age = 1), Some(bare(9)));
    assert_eq!(refused(&|s| s.last[0] = Some(TaskNo(0))), Some(bare(9)));
    let both = |s: &mut State| {
        s.jobs[0] = active;
        s.last = vec![Some(TaskNo(0)); 2];
    };
    assert_eq!(refused(&both), Some(bare(9)));
    let full = |s: &mut State| {
        s.jobs[0] = Job {
            late: false,
            ..active
        };
        (s.late, s.preemptions) = (u32::MAX, u32::MAX);
    };
    assert_eq!(refused(&full), None);
}

#[test]
fn records_are_judged_in_order() {
    let mut plan = layout(&three_sixes()).unwrap();
    let fresh = State::fresh(&plan);
    let refused = |plan: &Plan| tick(plan, &fresh, &[], &[]).err();
    plan.pieces.pop();
    assert_eq!(refused(&plan), Some(bare(8)));
    plan.table.tasks[1].cost = 0;
    assert_eq!(refused(&plan), Some(of_task(5, TaskNo(1))));
    plan.table.tasks.clear();
    assert_eq!(refused(&plan), Some(of_count(6, 0)));
    plan.table.cores = 17;
    assert_eq!(refused(&plan), Some(of_count(4, 17)));
}
