//! What --help prints.

pub const ALL: &str = "\
heat-battery: the proved zone engine for salt hydrate heat batteries

  heat-battery card template                 a card to start from
  heat-battery card check CARD               is the card accepted, what does it hold, what is odd
  heat-battery run CARD CALLS -o SHEET       make a list of calls, write the sheet
  heat-battery show SHEET [--json]           every line of a sheet
  heat-battery audit SHEET [--explain]       is the sheet right, and if not, where
  heat-battery plot SHEET -o FILE.svg        zones, state of charge and energies as a picture
  heat-battery convert SHEET -o NAME         back to its card and calls
  heat-battery refusals                      every refusal: number, name, meaning
  heat-battery --version

Each has --help. A file '-' is standard input or output; --option=value is --option value; after
'--' every word is a file. A file is written whole or not at all.
Status: 0 all well; 1 a card, a call or the sheet is refused, or isn't the one expected; 2 bad usage
or a bad file; 3 a demand is unmet and --unmet-fails stands there.
";

pub const CARD: &str = "\
heat-battery card template        print a card to start from
heat-battery card check FILE      is the card accepted, what does it hold, what is odd
";

pub const CARD_CHECK: &str = "\
heat-battery card check FILE

Reads a card (one name = value on each line, what follows # is a comment) and says whether the
engine accepts it. If so: what the battery holds between empty and full, below, in and above the
melting range, in kWh, the services that it lists, its floor and the card's fingerprint. If not, every
field that is out of range is named with its line and its range, and every service that can't be
listed.

A card may list services by number, each on a line such as

  service 12 = space

At most 32, their numbers rising from 4 to 65535; the classes are regular, space and direct. Only
sheets from version 3 on have them. It may have a line

  floor = yes

Then standing losses stop at 16 °C: no zone is cooled below that by them, and their energy is what was
taken. Only sheets from version 4 on have a floor. Without the line there is none.

Warnings, on standard error, are of what is legal but odd: a start above max or below reference,
losses that empty a full battery in a day, a melting capacity below the others or over 1000 times as
large. They change no status.

Status: 0 accepted; 1 refused; 2 the file can't be read or is no card.
";

pub const CARD_TEMPLATE: &str = "\
heat-battery card template

Prints a card to start from, without a floor, with each field's meaning, unit and range and, in a
comment, a line that lists a service.
";

pub const RUN: &str = "\
heat-battery run CARD CALLS -o SHEET [--version N] [--stop] [--most BYTES] [--unmet-fails]

Opens a battery with the card, makes the calls in order and writes the sheet. CALLS has one call
on each line, a kind and its fields in any order; what follows # is a comment:

  demand service=space commit=yes control_on=no required=0.8 start=0 return_temperature=30
  electric power=2.5 target=1
  hydronic inlet=70 hours=0.5 flow=8 target=1 limit=4 hex_a=174 hex_b=-930 velocity=0.035 diameter=0.0065
  standing_loss
  close_timestep
  state_of_charge
  charge_energy_demand flow_maximum=65 target=1

Services: combi, regular, space, direct or a number that the card lists, such as service=12; a demand
for another number is refused with 21, a trial of it runs. return_temperature and flow_maximum may be
none. Units: kWh, h, kW, °C, l/min, m/s, m. A refused call is reported with its number, its meaning
and its line, and the list goes on: 20 to 25 stand on the sheet as a line, 10 and 11 leave no line.
Beyond twenty, refused calls are counted.

A committed demand that got over 0.001 kWh less than it required is unmet; a refused one got
nothing. How many are, and what they lack, is said at the end.

  --version N    write a sheet of version N (1, 2, 3, 4), not of the newest. From version 2 on an
                 answered hydronic charge shows how long its pump ran; in version 1 it shows 0 s.
                 Numbered services are of version 3 and later: before, a card that lists some or a
                 call for one is an error, and nothing is written. So is a card with a floor before
                 version 4
  --stop         end at the first refused call; the sheet so far is written
  --most BYTES   hold the sheet to so many bytes; the list ends at the first line that has no room
  --unmet-fails  status 3 where a demand is unmet

Status: 0 every call was answered; 1 a call or the card was refused; 2 bad usage or a bad file; 3
every call was answered, a demand is unmet and --unmet-fails stands there.
";

pub const SHOW: &str = "\
heat-battery show SHEET [--json] [--unmet-fails]

Prints the card and every line: kind and fields of the call, a numbered service with its class on
the card, refusal in words, energy, shortfall of a demand, outlet, time, substeps, zones and totals;
at the end unmet demand, the hours of the charging loop, the sheet's version, the card's fingerprint
and the audit's verdict. Energy is heat that moved. What was only asked stands apart: the energy of a
trial, the state of charge (0 to 1), the charge energy demand ('to charge').

The time is that of a demand and, from version 2 on, of the pump of a hydronic charge. The charging
loop's hours are the sum of the latter; they are in none of the running totals.

The table is rounded; --json has every number exactly (one that isn't finite is a string). Its energy
and shortfall are 0 where there is none; trial_energy, state_of_charge, charge_energy_demand and
outlet are then null, as is charging_loop in version 1. The card's services are a list, its floor is
true or false; a demand's service is a name or a number, its service_class is null for combi and for a
number that isn't listed.

  --unmet-fails  status 3 where a demand is unmet, as 'run' has it

Status: 0 the audit accepts the sheet; 1 it refuses it (what is readable is shown); 2 bad file; 3 it
accepts it, a demand is unmet and --unmet-fails stands there.
";

pub const AUDIT: &str = "\
heat-battery audit SHEET [--explain] [--card CARD] [--lines N]

Makes the sheet's calls again on a fresh battery and compares every answer. Prints 'accepted N'
with the number of call lines, or 'refused R line K':

  40  no first byte, or no known version
  41  the card line is missing, of wrong length or its card is refused
  42  a call line is cut short, of unknown kind or wrong length, or a field is out of range
  43  an answer disagrees with the steps

The laboratory's audit program reads at most 65,536 bytes and answers 'refused 44 line 0' to a
longer sheet. Here such a sheet is audited too, and a last line says what the program would answer.

The next line is 'card F', the fingerprint of the sheet's card, if that is readable: eight
hexadecimal digits that 'card check' prints too. An accepted sheet is right about its own card and
its own lines; whether they are the ones meant is asked with

  --card CARD   the sheet's card has to be this one, bit for bit
  --lines N     it has to have so many call lines: a sheet cut at a line's end is accepted
  --explain     say which field it is, what the sheet says and what the steps give

Status: 0 accepted; 1 refused, or another card or count than expected; 2 bad usage or a bad file.
";

pub const PLOT: &str = "\
heat-battery plot SHEET -o FILE.svg [--from LINE] [--to LINE]

Draws zone temperatures, state of charge and energies over hours; call lines stand along the top.
Hours are those of closed timesteps; the calls of one share it in their order. A sheet that closes
none is drawn over its call lines. Heat in points up, heat out points down; trials are hollow. A
card's floor is a broken line among the zones. Marked are refused lines, unmet demands and the line
that the audit refuses; card, verdict and, from version 2 on, the hours of the charging loop stand
under the title.

  --from, --to  only these call lines

Beyond 5000 call lines several are drawn as one: zones and charge after the last of them, their
energies added up by kind. The title then says how many.

Status: 0 the audit accepts the sheet; 1 it refuses it (what is readable is drawn); 2 bad usage, such
as a range without lines or a name that doesn't end in .svg, or a bad file.
";

pub const CONVERT: &str = "\
heat-battery convert SHEET -o NAME
heat-battery convert SHEET --only card|calls [-o FILE]

Writes the sheet's card and calls as text, to NAME.card and NAME.calls, or only one of them, to FILE
or to standard output. 'heat-battery run' of the two in the sheet's version (--version) gives the
same sheet again if the engine wrote it. convert makes the calls again and says so if not; as for the
audit, a zero of the other sign is no difference, but it is noted. So is a version that isn't the
newest; a comment above the calls has the version in any case.

Status: 0 the same sheet will come; 1 the sheet is refused or another will come; 2 bad usage or file.
";

pub const REFUSALS: &str = "\
heat-battery refusals

Lists every refusal: its number as sheets and verdicts have it, its name as in the C header (there
with HEAT_BATTERY_ before it), and what it means.
";
