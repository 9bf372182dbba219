//! Steps and runs in a lone page, with their refusals, 18, 1 to 3, 20, 41 to 44 and 5, and
//! the library's own 255, faults and stops.

use super::arith::{add_with_carry, multiply, sdiv, shift_c, sign_extend, udiv, Shift};
use super::count::{branch_target, is_fit_below};
use super::decode::{opens_wide, BaseRegister, DataOp, Instruction, Operand, Register, Size};
use super::memory::{is_external_length, ByBase, Fault, Memory, RAM_SIZE};
use super::page::Page;
use super::record::{given, stored_bytes, Base, Record};
use super::refusal::Refusal;
use super::rules::Rules;
use super::services::{literal_service, Action, Service};
use super::setting::Setting;
use super::window::Window;

/// Why a run ended.
#[derive(Clone, Copy, Debug, PartialEq, Eq)]
pub enum Stop {
    /// A service left to the host, with its low byte and any literal word.
    Service { low: u8, literal: Option<u32> },
    /// A fault; the instruction is not counted and changed nothing.
    Fault(Fault),
    /// The whole budget is spent.
    Budget,
    /// The call was refused.
    Refused(Refusal),
    /// A halfword that matches no listed encoding of the profile: never met from
    /// a fit place.
    Unlisted,
}

impl Stop {
    /// Why the call was refused, if it was.
    pub fn refusal(self) -> Option<Refusal> {
        match self {
            Stop::Refused(refusal) => Some(refusal),
            _ => None,
        }
    }
}

/// The answer of a step or a run.
#[derive(Clone, Debug, PartialEq, Eq)]
pub struct Answer {
    pub record: Record,
    pub steps: u32,
    pub stop: Stop,
}

/// One step: a run with budget 1.
pub fn step(setting: Setting, ram: &mut [u8], record: &Record) -> Answer {
    run(setting, ram, record, 1)
}

/// A run with a budget.
pub fn run(setting: Setting, ram: &mut [u8], record: &Record, budget: u32) -> Answer {
    run_by(Rules::RIGHT, setting, ram, record, budget)
}

/// A run by other rules.
pub fn run_by(
    rules: Rules,
    setting: Setting,
    ram: &mut [u8],
    record: &Record,
    budget: u32,
) -> Answer {
    let call = Call {
        rules,
        setting,
        ram: ram.len(),
        record: Ok(record),
    };
    match (rules.accept)(call) {
        Err(refusal) => Answer {
            record: record.clone(),
            steps: 0,
            stop: Stop::Refused(refusal),
        },
        Ok(page) => Machine {
            page,
            memory: Memory::of(rules, setting.external, setting.window, ram),
            record: record.clone(),
            rules,
        }
        .run(budget),
    }
}

/// A run on the bytes of a record, as the library takes and leaves them: the stop
/// and the steps. If they hold no record, that is refused after what is wrong with
/// the areas lent and with the window.
pub fn run_bytes(
    rules: Rules,
    setting: Setting,
    ram: &mut [u8],
    bytes: &mut [u8],
    budget: u32,
) -> (Stop, u32) {
    let record = given(rules, bytes);
    let call = Call {
        rules,
        setting,
        ram: ram.len(),
        record: record.as_ref().map_err(|&no_record| no_record),
    };
    let accepted = (rules.accept)(call);
    let memory = Memory::of(rules, setting.external, setting.window, ram);
    run_given(rules, accepted, memory, (&record, bytes), budget)
}

/// A run on the page that its refusals leave, from the record that bytes hold, if they
/// hold one.
pub(super) fn run_given(
    rules: Rules,
    accepted: Result<Page, Refusal>,
    memory: Memory,
    (record, bytes): (&Result<Record, Refusal>, &mut [u8]),
    budget: u32,
) -> (Stop, u32) {
    match (accepted, record) {
        (Err(refusal), _) | (_, &Err(refusal)) => (Stop::Refused(refusal), 0),
        (Ok(page), Ok(record)) => {
            let machine = Machine {
                page,
                memory,
                record: record.clone(),
                rules,
            };
            let answer = machine.run(budget);
            bytes.copy_from_slice(&stored_bytes(&answer.record));
            (answer.stop, answer.steps)
        }
    }
}

/// What decides whether a step or a run is refused.
#[derive(Clone, Copy)]
pub struct Call<'a> {
    pub rules: Rules,
    pub setting: Setting<'a>,
    /// How many bytes of RAM there are.
    pub ram: usize,
    /// The record, or the refusal of bytes that hold none.
    pub record: Result<&'a Record, Refusal>,
}

impl Call<'_> {
    /// The same within another window.
    pub fn within(self, window: Window) -> Self {
        let setting = self.setting.within(window);
        Call { setting, ..self }
    }
}

/// All refusals of a step or a run, in order.
pub fn accept(call: Call) -> Result<Page, Refusal> {
    let rules = call.rules;
    let page = (rules.run)(call.setting.code).map_err(Refusal::plain)?;
    accept_beside(call, page, rules.count).map(|()| page)
}

/// Those that follow the page's own, by the page's count: 2, 3, 20, the library's 255, 41
/// to 44, 5.
pub(super) fn accept_beside(
    call: Call,
    page: Page,
    count: impl FnOnce(Page) -> usize,
) -> Result<(), Refusal> {
    let Call { rules, setting, .. } = call;
    let external = setting.external.len();
    if call.ram != RAM_SIZE {
        return Err(Refusal::plain(2));
    }
    if !is_external_length(external) {
        return Err(Refusal::plain(3));
    }
    if !setting.window.is_allowed() {
        return Err(Refusal::plain(20));
    }
    let record = call.record?;
    let place_is_fit = is_fit_below(count(page), page, usize::from(record.place));
    match (rules.unfit)(record, external, place_is_fit) {
        Some(number) => Err(Refusal::plain(number)),
        None => Ok(()),
    }
}

/// What an instruction leads to when it does not fault.
enum Next {
    /// The instruction that follows.
    Follow,
    /// A byte address in the page.
    Jump(i64),
    /// A stop for the host, at which the place stays or moves on.
    Exit {
        stays: bool,
        low: u8,
        literal: Option<u32>,
    },
}

/// Why an instruction is not counted.
enum Halt {
    Fault(Fault),
    Unlisted,
}

impl From<Fault> for Halt {
    fn from(fault: Fault) -> Halt {
        Halt::Fault(fault)
    }
}

/// A machine within one call.
struct Machine<'a> {
    page: Page<'a>,
    memory: Memory<'a>,
    record: Record,
    rules: Rules,
}

impl Machine<'_> {
    /// Goes on until the budget is spent or an instruction stops the run.
    fn run(mut self, budget: u32) -> Answer {
        let allowed = (self.rules.allowed)(budget);
        let mut steps = 0;
        let stop = loop {
            if steps == allowed {
                break Stop::Budget;
            }
            match self.instruction() {
                Ok(exit) => {
                    steps += 1;
                    if let Some(stop) = exit {
                        break stop;
                    }
                }
                Err(Halt::Fault(fault)) => break Stop::Fault(fault),
                Err(Halt::Unlisted) => break Stop::Unlisted,
            }
        };
        Answer {
            record: self.record,
            steps,
            stop,
        }
    }

    /// Executes the instruction at the place. If it faults, the record is put
    /// back; RAM is written only where no fault can follow.
    fn instruction(&mut self) -> Result<Option<Stop>, Halt> {
        let before = self.record.clone();
        let (instruction, size) = self.fetch().ok_or(Halt::Unlisted)?;
        match self.execute(instruction) {
            Ok(next) => Ok(self.advance(next, size)),
            Err(halt) => {
                self.record = before;
                Err(halt)
            }
        }
    }

    /// The instruction at the place and its size in halfwords.
    fn fetch(&self) -> Option<(Instruction, u16)> {
        let place = usize::from(self.record.place);
        if place >= 2 * self.page.bundles() {
            return None;
        }
        let first = self.page.halfword(place);
        if !opens_wide(first) {
            return Some((self.page.narrow(first)?, 1));
        }
        if !place.is_multiple_of(2) {
            return None;
        }
        let second = self.page.halfword(place + 1);
        Some((self.page.wide(first, second)?, 2))
    }

    /// Moves the place, and tells how the run stops if it does.
    fn advance(&mut self, next: Next, size: u16) -> Option<Stop> {
        match next {
            Next::Follow => {
                self.record.place += size;
                None
            }
            Next::Jump(address) => {
                self.record.place = (address / 2) as u16;
                None
            }
            Next::Exit {
                stays,
                low,
                literal,
            } => {
                if !stays {
                    self.record.place += size;
                }
                Some(Stop::Service { low, literal })
            }
        }
    }

    /// R[n].
    fn r(&self, n: Register) -> u32 {
        self.record.registers[n]
    }

    /// R[d] = value, without flags.
    fn write(&mut self, d: Register, value: u32) {
        self.record.registers[d] = value;
    }

    /// Sets N and Z from a result.
    fn set_nz(&mut self, result: u32) {
        self.record.flags = self.record.flags.with_nz(result);
    }

    /// AddWithCarry that sets all four flags.
    fn add_flags(&mut self, x: u32, y: u32, carry: bool) -> u32 {
        let (result, carry, overflow) = add_with_carry(x, y, carry);
        self.set_nz(result);
        self.record.flags.c = carry;
        self.record.flags.v = overflow;
        result
    }

    /// A shift that sets N, Z and C.
    fn shift_flags(&mut self, x: u32, kind: Shift, amount: u32) -> u32 {
        let (result, carry) = shift_c(x, kind, amount, self.record.flags.c);
        self.set_nz(result);
        self.record.flags.c = carry;
        result
    }

    /// The value of a second operand.
    fn operand(&self, operand: Operand) -> u32 {
        match operand {
            Operand::Register(m) => self.r(m),
            Operand::Constant(constant) => constant,
        }
    }

    /// The address of the instruction at the place.
    fn address(&self) -> usize {
        2 * usize::from(self.record.place)
    }

    /// A branch if its test holds.
    fn branch_if(&self, holds: bool, offset: i32) -> Next {
        if holds {
            Next::Jump(branch_target(self.address(), offset))
        } else {
            Next::Follow
        }
    }

    /// Executes one instruction but for the place.
    fn execute(&mut self, instruction: Instruction) -> Result<Next, Halt> {
        match instruction {
            Instruction::CompareBranch { nonzero, n, offset } => {
                return Ok(self.branch_if((self.r(n) != 0) == nonzero, offset));
            }
            Instruction::ConditionalBranch { condition, offset } => {
                let holds = (self.rules.condition)(condition, self.record.flags);
                return Ok(self.branch_if(holds, offset));
            }
            Instruction::Branch { offset } => return Ok(self.branch_if(true, offset)),
            Instruction::Service { low, service } => return self.service(low, service),
            Instruction::LoadLiteral { .. }
            | Instruction::StackStore { .. }
            | Instruction::StackLoad { .. }
            | Instruction::Store { .. }
            | Instruction::Load { .. } => self.transfer(instruction)?,
            _ => self.compute(instruction),
        }
        Ok(Next::Follow)
    }

    /// Instructions that only work on registers, flags and SP.
    fn compute(&mut self, instruction: Instruction) {
        match instruction {
            Instruction::ShiftConstant { kind, amount, m, d } => {
                let result = self.shift_flags(self.r(m), kind, amount);
                self.write(d, result);
            }
            Instruction::Add { n, operand, d } => {
                let result = self.add_flags(self.r(n), self.operand(operand), false);
                self.write(d, result);
            }
            Instruction::Sub { n, operand, d } => {
                let result = self.add_flags(self.r(n), !self.operand(operand), true);
                self.write(d, result);
            }
            Instruction::MovConstant { d, constant } => {
                self.set_nz(constant);
                self.write(d, constant);
            }
            Instruction::CmpConstant { n, constant } => {
                self.add_flags(self.r(n), !constant, true);
            }
            Instruction::Data { op, m, dn } => self.data(op, m, dn),
            Instruction::MovRegister { m, d } => self.write(d, self.r(m)),
            Instruction::AddFromSp { d, offset } => self.write(d, self.record.sp + offset),
            Instruction::Extend {
                width,
                signed,
                m,
                d,
            } => self.write(d, extend(self.r(m), width, signed)),
            other => self.compute_wide(other),
        }
    }

    /// The same for 32-bit instructions.
    fn compute_wide(&mut self, instruction: Instruction) {
        match instruction {
            Instruction::Movw { d, constant } => self.write(d, constant),
            Instruction::Movt { d, constant } => {
                self.write(d, constant << 16 | (self.r(d) & 0xFFFF));
            }
            Instruction::Divide { signed, n, m, d } => {
                let divide = if signed { sdiv } else { udiv };
                self.write(d, divide(self.r(n), self.r(m)));
            }
            _ => {}
        }
    }

    /// The sixteen register operations.
    fn data(&mut self, op: DataOp, m: Register, dn: Register) {
        let (x, y) = (self.r(dn), self.r(m));
        let carry = self.record.flags.c;
        match op {
            DataOp::And => self.write_nz(dn, x & y),
            DataOp::Eor => self.write_nz(dn, x ^ y),
            DataOp::Orr => self.write_nz(dn, x | y),
            DataOp::Bic => self.write_nz(dn, x & !y),
            DataOp::Mvn => self.write_nz(dn, !y),
            DataOp::Mul => self.write_nz(dn, multiply(y, x)),
            DataOp::Tst => self.set_nz(x & y),
            DataOp::Shift(kind) => {
                let result = self.shift_flags(x, kind, y & 0xFF);
                self.write(dn, result);
            }
            DataOp::Adc => self.write_sum(dn, x, y, carry),
            DataOp::Sbc => self.write_sum(dn, x, !y, carry),
            DataOp::Rsb => self.write_sum(dn, !y, 0, true),
            DataOp::Cmp => {
                self.add_flags(x, !y, true);
            }
            DataOp::Cmn => {
                self.add_flags(x, y, false);
            }
        }
    }

    /// R[d] = result, with N and Z.
    fn write_nz(&mut self, d: Register, result: u32) {
        self.set_nz(result);
        self.write(d, result);
    }

    /// R[d] = AddWithCarry, with all flags.
    fn write_sum(&mut self, d: Register, x: u32, y: u32, carry: bool) {
        let result = self.add_flags(x, y, carry);
        self.write(d, result);
    }

    /// Loads and stores.
    fn transfer(&mut self, instruction: Instruction) -> Result<(), Fault> {
        let sp = self.record.sp;
        match instruction {
            Instruction::LoadLiteral { t, words } => {
                let bundle = usize::from(self.record.place) / 2 + 1 + words;
                let value = self.page.word(bundle).ok_or(Fault::PastPage)?;
                self.write(t, value);
            }
            Instruction::StackStore { t, offset } => {
                self.memory.stack_store(sp, offset, self.r(t))?;
            }
            Instruction::StackLoad { t, offset } => {
                let value = self.memory.stack_load(sp, offset)?;
                self.write(t, value);
            }
            Instruction::Store { size, t, offset } => {
                let given = self.by_base(BaseRegister::R9, offset, size);
                self.memory.store(given, self.r(t))?;
            }
            Instruction::Load {
                size,
                signed,
                base,
                t,
                offset,
            } => {
                let raw = self.memory.load(self.by_base(base, offset, size))?;
                self.write(t, extend(raw, 8 * size.bytes() as u32, signed));
            }
            _ => {}
        }
        Ok(())
    }

    /// An access by the record's base.
    fn by_base(&self, by: BaseRegister, offset: usize, size: Size) -> ByBase {
        ByBase {
            base: self.record.base,
            by,
            offset,
            size,
        }
    }

    /// A service: by its low byte or by its literal word.
    fn service(&mut self, low: u8, service: Service) -> Result<Next, Halt> {
        let (action, literal) = match service {
            Service::Direct(action) => (action, None),
            Service::ByLiteral(number) => {
                let word = self.page.word(number).ok_or(Halt::Unlisted)?;
                (literal_service(word).ok_or(Halt::Unlisted)?, Some(word))
            }
        };
        self.record.base = self.act(action)?;
        Ok(match action {
            Action::Exit(exit) => Next::Exit {
                stays: (self.rules.stays)(exit, self.page.never_return()),
                low,
                literal,
            },
            _ => Next::Follow,
        })
    }

    /// What a service does; the answer is the base it leaves.
    fn act(&mut self, action: Action) -> Result<Base, Fault> {
        let sp = self.record.sp;
        let external = self.memory.external.len();
        match action {
            Action::Exit(_) | Action::Preload => {}
            Action::SetBaseFrom(n) => return Ok((self.rules.validate)(self.r(n), external)),
            Action::SetBase(address) => return Ok((self.rules.validate)(address, external)),
            Action::LowerStack(bytes) => self.record.sp = self.memory.lower_stack(sp, bytes)?,
            Action::StackStore { register, offset } => {
                self.memory.stack_store(sp, offset, self.r(register))?;
            }
            Action::StackLoad { register, offset } => {
                let value = self.memory.stack_load(sp, offset)?;
                self.write(register, value);
            }
        }
        Ok(Base::None)
    }
}

/// Extends the low `width` bits by sign or by zero.
fn extend(x: u32, width: u32, signed: bool) -> u32 {
    match (width, signed) {
        (32, _) => x,
        (_, true) => sign_extend(x, width),
        (_, false) => x & ((1 << width) - 1),
    }
}
