//! What `--help` prints, a page for each command.

/// The page of all commands.
pub const ALL: &str = "\
NAME
    mavdesk - check, show and amend flows of payment requests (CBI M.Av.)

SYNOPSIS
    mavdesk check FILE..            judge flows, or all flows of a folder
    mavdesk show FILE [K]           show the requests of a flow, or request K
    mavdesk diff OLD NEW            say what differs between two flows
    mavdesk amount FILE K EUROS     give request K another amount
    mavdesk withdraw FILE K..       take requests out
    mavdesk list FLOW LIST          write the request list of a flow
    mavdesk write LIST FLOW         write the flow of a request list
    mavdesk recall SENT OUT K..     recall requests of a flow already sent
    mavdesk explain [N]             say what a refusal's number means

DESCRIPTION
    Every flow is judged whole before anything is shown or changed, and every
    change is made by a library whose rules are proved. No file is ever written
    to in place: after an amendment either the old flow or the new one stands
    under its name, whole, and the old one is kept as NAME.before. A request is
    what the standard calls a disposition. A flow holds requests, or recalls of
    requests already sent: what is said here of requests goes for recalls too.

    The commands that save ask first, and with --yes they do not; show has
    --find TEXT, and diff has --all. mavdesk COMMAND --help tells more. A word
    -- ends the options.

EXIT STATUS
    0  all was done; 1  the rules or the clerk said no, or nothing was found;
    2  a file, a lock or the command line was in the way. Of diff: 0  nothing
    differs; 1  something does; 2  the flows could not be compared.
";

pub const CHECK: &str = "\
NAME
    mavdesk check - judge flows

SYNOPSIS
    mavdesk check FILE..

DESCRIPTION
    Prints a line for each flow: its name, whether it holds requests or recalls,
    how many, their total in euro and its records; or why it is refused. Under
    the lines every refused record is shown below a ruler, with the position
    marked. Requests and recalls are added up apart. The flows are judged on all
    cores at once, and at a terminal a line tells how far it is.

    FILE may be a folder: all plain files in it are judged but hidden ones and
    those that end in .before or .list. Folders in it are not looked into. A
    flow that is named twice is judged once.

EXIT STATUS
    0 only if all flows are accepted; 1 if one is refused; 2 if one cannot be
    read.

EXAMPLES
    mavdesk check tonight
    mavdesk check house-07.flow house-12.flow
";

pub const SHOW: &str = "\
NAME
    mavdesk show - show the requests of a flow

SYNOPSIS
    mavdesk show FILE [--find TEXT]
    mavdesk show FILE K

DESCRIPTION
    Prints what the flow holds, and a row for each request: its number, when it
    is due, its amount in euro, the debtor (record 30, positions 11-40) and the
    creditor's number for it (record 51, positions 11-20). With K it prints
    request K with all its records, each below a ruler.

OPTIONS
    --find TEXT
        Only the requests that have TEXT somewhere in their row, in capital or
        small letters. 1.450,00 is found as 1450 too.

EXIT STATUS
    0 if something is shown; 1 if the flow is refused or nothing is found; 2 if
    it cannot be read.

EXAMPLES
    mavdesk show house-07.flow --find rossi
    mavdesk show house-07.flow 17
";

pub const DIFF: &str = "\
NAME
    mavdesk diff - say what differs between two flows

SYNOPSIS
    mavdesk diff [--all] OLD NEW

DESCRIPTION
    Compares the flow OLD, such as last night's, with the flow NEW, such as
    tonight's, and prints what both are, a row for each request that differs,
    and both totals. Both files are only read.

    A row has the request's number in OLD (BEFORE) and in NEW (AFTER), when it
    is due, its amount in euro and the debtor (record 30, positions 11-70), and
    begins with what became of it:

    dropped     It is in OLD alone.
    added       It is in NEW alone.
    changed     One was dropped and one added for the same debtor. The row now
                under it has the due date and the amount where they differ, and
                says in which records something else does.
    moved       It stands elsewhere among the others, and is as it was.
    kept        It is as it was. Without --all these are only counted.

    Two requests are the same if all that a request list has of them is the
    same; their numbers do not count, and the flows' own names and dates are
    not compared. Of all ways from OLD to NEW it is the one that drops and adds
    fewest. A flow of more than 256 requests cannot be compared, nor requests
    with recalls.

OPTIONS
    --all
        A row for each request that is kept, too.

EXIT STATUS
    0 if nothing differs; 1 if something does; 2 if a flow is refused or cannot
    be read, or the two cannot be compared.

EXAMPLE
    mavdesk diff last-night/house-07.flow tonight/house-07.flow
";

pub const AMOUNT: &str = "\
NAME
    mavdesk amount - give a request another amount

SYNOPSIS
    mavdesk amount [--yes] FILE K EUROS

DESCRIPTION
    Shows the amount of request K and the trailer before and after, asks, and
    saves. EUROS is written as 450 or 450,00 or 450.00, and in no other way. It
    is above zero: to ask for nothing, take the request out by mavdesk withdraw.

    While this runs, nobody else can amend the flow with mavdesk: they are told
    who does, and since when. The flow as it was is kept as FILE.before.

OPTIONS
    --yes
        Save without asking.

EXIT STATUS
    0 if it is saved or stands there already; 1 if it is refused or not wanted;
    2 if the file cannot be read, locked or saved.

EXAMPLE
    mavdesk amount house-07.flow 17 450,00
";

pub const WITHDRAW: &str = "\
NAME
    mavdesk withdraw - take requests out of a flow

SYNOPSIS
    mavdesk withdraw [--yes] FILE K..

DESCRIPTION
    Shows the requests that will go and the trailer before and after, asks, and
    saves. The numbers K are those that mavdesk show prints; that the later
    requests get new ones is seen to. All of them are withdrawn, or none. Look
    at the names before you say yes: where another clerk has withdrawn a request
    since mavdesk show was run, later requests have other numbers.

    While this runs, nobody else can amend the flow with mavdesk: they are told
    who does, and since when. The flow as it was is kept as FILE.before.

OPTIONS
    --yes
        Save without asking.

EXIT STATUS
    0 if it is saved; 1 if it is refused or not wanted; 2 if the file cannot be
    read, locked or saved, or a K is named twice.

EXAMPLE
    mavdesk withdraw house-07.flow 3 17 21
";

pub const LIST: &str = "\
NAME
    mavdesk list - write the request list of a flow

SYNOPSIS
    mavdesk list [--yes] FLOW LIST

DESCRIPTION
    Writes the request list of FLOW to the file LIST. If LIST is there already
    it is replaced only after a yes, and kept as LIST.before.

OPTIONS
    --yes
        Replace without asking.

EXIT STATUS
    0 if it is saved; 1 if the flow is refused or a file is not to be replaced;
    2 if a file cannot be read, locked or saved.

EXAMPLE
    mavdesk list house-07.flow house-07.list
";

pub const WRITE: &str = "\
NAME
    mavdesk write - write the flow of a request list

SYNOPSIS
    mavdesk write [--yes] LIST FLOW

DESCRIPTION
    Writes the flow that LIST encodes to the file FLOW. If FLOW is there already
    it is replaced only after a yes, and kept as FLOW.before. Where the list is
    refused, the item is shown at the positions of its record.

OPTIONS
    --yes
        Replace without asking.

EXIT STATUS
    0 if it is saved; 1 if the list is refused or a file is not to be replaced;
    2 if a file cannot be read, locked or saved.

EXAMPLE
    mavdesk write house-07.list house-07.flow
";

pub const RECALL: &str = "\
NAME
    mavdesk recall - recall requests of a flow already sent

SYNOPSIS
    mavdesk recall [--yes] [--name NAME] [--date GGMMAA] SENT OUT K..

DESCRIPTION
    Makes the flow by which the bank recalls requests K of the flow SENT, in the
    order in which they stand there. It shows the requests and what the recall
    flow is, asks, and saves it as the file OUT. SENT is only read, and an OUT
    that is there already is left alone.

    The numbers K are those that mavdesk show SENT prints. In the recall flow
    they begin with 1 again.

    A bank knows a flow by its sender, its date and its name. The sender is that
    of SENT; the date or the name, or both, have to be others. At a terminal
    they are asked for where they are not given.

OPTIONS
    --name NAME
        The name of the recall flow, of at most 20 characters.

    --date GGMMAA
        Its date: day, month and year in two digits each.

    --yes
        Save without asking.

EXIT STATUS
    0 if it is saved; 1 if it is refused or not wanted; 2 if a file cannot be
    read, locked or saved, OUT is there already, the name or the date is missing
    or a K is named twice.

EXAMPLE
    mavdesk recall --name RECALL-07 --date 170326 house-07.flow recall.flow 3 17
";

pub const EXPLAIN: &str = "\
NAME
    mavdesk explain - say what a refusal's number means

SYNOPSIS
    mavdesk explain [N]

DESCRIPTION
    Prints what number N means, which place a refusal by it gives, and what to
    do; without N all of them.

EXIT STATUS
    0 if there is such a number, else 2.

EXAMPLE
    mavdesk explain 9
";
