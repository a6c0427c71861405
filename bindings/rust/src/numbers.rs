//! The numbers of the archive as enums, each case with its number and its text.

use std::fmt;

/// Declares an enum whose cases have a number and a text each.
macro_rules! numbered {
    ($(#[$about:meta])* $name:ident { $($(#[$note:meta])* $case:ident = $number:literal, $text:literal;)+ }) => {
        $(#[$about])*
        #[derive(Clone, Copy, Debug, PartialEq, Eq, Hash)]
        #[non_exhaustive]
        pub enum $name {
            $($(#[$note])* $case,)+
        }

        impl $name {
            /// Every case, in the order of the numbers.
            pub const ALL: &'static [$name] = &[$($name::$case),+];

            /// The number of this case, as the documents and the C header have it.
            #[must_use]
            pub const fn number(self) -> u16 {
                match self {
                    $($name::$case => $number,)+
                }
            }

            /// The case with a number, where there is one.
            #[must_use]
            pub const fn with_number(number: u16) -> Option<$name> {
                match number {
                    $($number => Some($name::$case),)+
                    _ => None,
                }
            }

            /// What it means, in words. `Display` writes the same.
            #[must_use]
            pub const fn text(self) -> &'static str {
                match self {
                    $($name::$case => $text,)+
                }
            }
        }

        impl fmt::Display for $name {
            fn fmt(&self, to: &mut fmt::Formatter<'_>) -> fmt::Result {
                to.pad(self.text())
            }
        }

        impl From<$name> for u16 {
            fn from(case: $name) -> u16 {
                case.number()
            }
        }
    };
}

numbered! {
    /// Why a call is refused. It changed no word and no byte then, save that [`run`](crate::run) and
    /// [`report`](crate::report) have taken the events before the refused one.
    ///
    /// Its number is what the documents and the C header call "the number".
    #[must_use]
    Refusal {
        /// 1: the image has under 18 words.
        TooShort = 1, "image under 18 words";
        /// 2: the image does not begin with the mark 19284 and an edition that is known.
        NotMarked = 2, "mark or edition wrong";
        /// 3: the number of tasks is not 1 to 16, the slice is 0, or a capacity is not 1 to 32; of an image or a plan.
        OutOfRange = 3, "the number of tasks, the slice or a capacity out of range";
        /// 4: an offset in the image's header is not the one where the parts follow one another without gaps.
        NotPacked = 4, "an offset is not the packed one";
        /// 5: a segment's base or length is wrong, or the total; or the slice has another length than the total.
        WrongSegments = 5, "a segment or the total is wrong, or the image has another length";
        /// 6: another rule of an image is broken; [`broken_rule`](crate::broken_rule) says which.
        RuleBroken = 6, "another rule of the image is broken";
        /// 7: the event has an unknown kind, a device that is not there, or a device or character where it must be 0,
        /// or a character over 255; or a list of events is not a multiple of three words.
        MalformedEvent = 7, "event malformed, or a list not a multiple of three words";
        /// 8: the input buffer of the device's task is full. Let the task take a word first.
        InputFull = 8, "input for a full input buffer";
        /// 9: the device's port puts nothing out.
        PortIdle = 9, "output done on an idle port";
        /// 11: the plan has under five words, too few or too many for its tasks, a segment of 0 words, a program longer
        /// than its segment, or an image of over 32768 words.
        BadPlan = 11, "the plan is malformed, or its image has more than 32768 words";
        /// 12: the target has another length than [`size`](crate::size) says. (The archive's own call on counts gives it
        /// for another number of them than 97, which the package's calls cannot be lent.)
        WrongTarget = 12, "the target has another length than the plan's image, or not 97 counts";
        /// 13: a line of the names or of the script is none of the grammar, or gives one name or label over 8192.
        OutsideGrammar = 13, "a line outside the grammar, or a name too many";
        /// 14: a name or label is given twice, or one that is used is not given.
        NameFault = 14, "a name given twice or not at all";
        /// 15: a number, a label that is used, or a partial result is over 65535 or below 0.
        ValueOutOfRange = 15, "a value out of range";
        /// 16: the script has more words than the target; or the list has over [`MOST_PRINTED`](crate::MOST_PRINTED)
        /// words, or its text more bytes than the buffer.
        NoRoom = 16, "more words or bytes than there is room for";
        /// 17: the count that a tick belongs to is at its end, [`u32::MAX`].
        CountFull = 17, "a count of ticks is at its end";
    }
}

impl std::error::Error for Refusal {}

numbered! {
    /// What an event came to.
    Kind {
        /// 0: a tick found no task ready.
        Idle = 0, "idle";
        /// 1: the first task has an error; it is stopped and leaves the ready queue.
        ErrorStop = 1, "error stop";
        /// 2: the first task's slice was used up; it went to the end of the ready queue.
        TurnPassed = 2, "turn passed";
        /// 3: the service that the task had asked for was done.
        ServiceDone = 3, "service done";
        /// 4: the service must wait, and the task with it.
        ServiceWaits = 4, "service waits";
        /// 5: the service is at fault; the task has an error now.
        ServiceFaulted = 5, "service faulted";
        /// 6: one order of the task was done.
        OrderDone = 6, "order done";
        /// 7: the order is at fault; the task has an error now.
        OrderFaulted = 7, "order faulted";
        /// 8: a character was put into the task's input buffer.
        Input = 8, "input";
        /// 9: the port of the task took its next character, or went idle.
        OutputDone = 9, "output done";
    }
}

numbered! {
    /// What a task's ticks are counted under. Its number is its place in the task's row of counts.
    Heading {
        /// 0: orders, which are done.
        Orders = 0, "orders";
        /// 1: services, which are finished.
        Services = 1, "services";
        /// 2: services that had to wait, and the task with them.
        Waits = 2, "waits";
        /// 3: faults, of orders and of services.
        Faults = 3, "faults";
        /// 4: stops by an error.
        ErrorStops = 4, "error stops";
        /// 5: turns that were passed on.
        PassedTurns = 5, "passed turns";
    }
}

numbered! {
    /// How a task stands.
    Status {
        /// 0: in the ready queue.
        Ready = 0, "ready";
        /// 1: the message buffer from it to its peer is full.
        WaitsToSend = 1, "waits to send";
        /// 2: the message buffer from its peer to it is empty.
        WaitsToReceive = 2, "waits to receive";
        /// 3: its input buffer is empty.
        WaitsForInput = 3, "waits for input";
        /// 4: its output buffer is full.
        WaitsForOutput = 4, "waits for output";
        /// 5: stopped; its error says why.
        Stopped = 5, "stopped by error";
    }
}

numbered! {
    /// Why a task is stopped, or will be at its next tick.
    TaskError {
        /// 1: an order, its second word or an operand is at an address that the task's segment has not.
        Outside = 1, "address outside the segment";
        /// 2: a word that is no order.
        BadOrder = 2, "unknown op or bad field";
        /// 3: an order for a service that is not there.
        BadService = 3, "unknown service";
        /// 4: a quotient or remainder by 0.
        ZeroDivisor = 4, "zero divisor";
        /// 5: a send to, or a receive from, a task that is not there.
        NoSuchTask = 5, "no such task";
        /// 6: an output of a word that is no character.
        NoCharacter = 6, "output of more than 255";
    }
}

numbered! {
    /// What a task may ask the kernel for.
    Service {
        /// 1: R3 goes to the task in R2.
        Send = 1, "send";
        /// 2: a word comes to R3 from the task in R2.
        Receive = 2, "receive";
        /// 3: a character comes to R3 from the task's device.
        Input = 3, "input";
        /// 4: R3 goes to the task's device as a character.
        Output = 4, "output";
    }
}

numbered! {
    /// The rules of an image that [`Refusal::RuleBroken`] covers, in the order in which they are looked at. The text
    /// says how a rule is broken.
    Rule {
        /// 1, of a task: cc is at most 2, the error at most 6, what is pending at most 4.
        Flags = 1, "cc, error or pending out of range";
        /// 2, of a task: there is no error while a service is pending.
        Both = 2, "error and pending both set";
        /// 3, of a task: the status is at most 5.
        Status = 3, "status over 5";
        /// 4, of a queue: its capacity is the header's, of the ready queue the number of tasks.
        Capacity = 4, "capacity is not the header's";
        /// 5, of a queue: head and tail are below the capacity.
        HeadTail = 5, "head or tail not below the capacity";
        /// 6, of a queue: the length is at most the capacity.
        Length = 6, "length over the capacity";
        /// 7, of a queue: the tail is as many slots after the head as the length says, round the end.
        Round = 7, "tail is not where head and length lead";
        /// 8, of an input or output buffer: each word held is a character.
        Characters = 8, "holds a word over 255";
        /// 9, of the ready queue: each word held is a task.
        Tasks = 9, "holds a word that is no task";
        /// 10, of a task: the ready queue holds it once where it is ready, else not at all.
        Readied = 10, "not in the ready queue as its status asks";
        /// 11, of the clock: it is at most the slice.
        ClockRange = 11, "clock over the slice";
        /// 12, of the clock: it is 0 where the ready queue is empty.
        ClockIdle = 12, "clock not 0 though no task is ready";
        /// 13, of a task: its port's busy is 0 or 1 and the character at most 255.
        Port = 13, "busy over 1 or character over 255";
        /// 14, of a task: where its port is idle, the character is 0 and the output buffer empty.
        IdlePort = 14, "idle port with a character or output waiting";
        /// 15, of a task that waits to send: a send is pending, R2 is its peer, a task, and the buffer to it is full.
        Sends = 15, "does not stand as one that waits to send";
        /// 16, of a task that waits to receive: a receive is pending, R2 is its peer, a task, and the buffer from it
        /// is empty.
        Receives = 16, "does not stand as one that waits to receive";
        /// 17, of a task that waits for input: an input is pending and its buffer is empty.
        Inputs = 17, "does not stand as one that waits for input";
        /// 18, of a task that waits for output: an output is pending, R3 is a character, and its buffer is full.
        Outputs = 18, "does not stand as one that waits for output";
        /// 19, of a task that is stopped: it has an error.
        Stopped = 19, "stopped without an error";
        /// 20, of a task that waits neither to send nor to receive: its peer is 0.
        Peerless = 20, "a peer though it waits for no task";
        /// 21, of a queue: each of its free slots holds 0.
        FreeSlots = 21, "old words in free slots";
    }
}
