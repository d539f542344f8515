//! The Rust original, used as a program would use it. Each piece of work has a copy of the original to itself, as in a program that does
//! nothing else: so the compiler may inline what is called in one place.

/// A module that does one piece of work.
macro_rules! alone {
    ($name:ident, $($work:item)*) => {
        #[allow(dead_code, unused_imports, unexpected_cfgs, mismatched_lifetime_syntaxes)]
        pub mod $name {
            use crate::inputs::Wish;
            use crate::parser;
            use maccommandcreator::*;
            use maccommands::*;
            use std::array::from_fn;

            pub mod maccommands {
                include!("../docs/src/src/maccommands.rs");
            }

            pub mod maccommandcreator {
                include!("../docs/src/src/maccommandcreator.rs");
            }

            include!("creator.rs");

            $($work)*
        }
    };
}

alone! {
    counting,

    #[inline(never)]
    pub fn count(stream: &[u8], _: usize) -> u64 {
        parse_downlink_mac_commands(stream).count() as u64
    }
}

alone! {
    iterating,

    /// Whether the iterator has a command after n others, as 1 or 0.
    #[inline(never)]
    pub fn nth(stream: &[u8], n: usize) -> u64 {
        parse_downlink_mac_commands(stream).nth(n).is_some() as u64
    }
}

alone! {
    jumping,

    /// The iterator's command after n others: its CID * 256 + the bytes of its payload; or 0 where there is none.
    #[inline(never)]
    pub fn nth(stream: &[u8], n: usize) -> u64 {
        parse_downlink_mac_commands(stream).nth(n).map_or(0, |command| u64::from(command.cid()) * 256 + command.len() as u64)
    }
}

alone! {
    placing,

    /// Of every command, its offset * 65,536 + its CID * 256 + the bytes of its payload. Each begins where the one before ends.
    pub fn spots(stream: &[u8]) -> Vec<u64> {
        let mut at = 0;
        let spot = |command: DownlinkMacCommand| {
            let len = command.len() as u64;
            let spot = at * 65_536 + u64::from(command.cid()) * 256 + len;
            at += 1 + len;
            spot
        };
        parse_downlink_mac_commands(stream).map(spot).collect()
    }
}

alone! {
    reading,

    /// Every field of every command once, added up modulo 2^32: a mask by its banks, a duty cycle by its number and by its fraction's bits. The
    /// seconds and the delay are the standard's and the port's: what the original reads, the seconds with their bytes in the other order, and of the
    /// delay 1 in the place of 0.
    #[inline(never)]
    pub fn fields(stream: &[u8], _: usize) -> u64 {
        let mut sum = 0u32;
        for command in parse_downlink_mac_commands(stream) {
            sum = sum.wrapping_add(worth(&command));
        }
        u64::from(sum)
    }

    fn worth(command: &DownlinkMacCommand) -> u32 {
        match command {
            DownlinkMacCommand::LinkCheckAns(p) => p.margin() as u32 + p.gateway_count() as u32,
            DownlinkMacCommand::LinkADRReq(p) => {
                let (mask, redundancy) = (p.channel_mask(), p.redundancy());
                p.data_rate() as u32
                    + p.tx_power() as u32
                    + mask.get_index(0) as u32
                    + mask.get_index(1) as u32
                    + redundancy.channel_mask_control() as u32
                    + redundancy.number_of_transmissions() as u32
            }
            DownlinkMacCommand::DutyCycleReq(p) => p.max_duty_cycle_raw() as u32 + p.max_duty_cycle().to_bits(),
            DownlinkMacCommand::RXParamSetupReq(p) => {
                let settings = p.dl_settings();
                settings.rx1_dr_offset() as u32 + settings.rx2_data_rate() as u32 + p.frequency().value()
            }
            DownlinkMacCommand::DevStatusReq(_) => 0,
            DownlinkMacCommand::NewChannelReq(p) => {
                let range = p.data_rate_range();
                p.channel_index() as u32 + p.frequency().value() + range.max_data_rate() as u32 + range.min_data_rate() as u32
            }
            DownlinkMacCommand::RXTimingSetupReq(p) => p.delay().max(1) as u32,
            DownlinkMacCommand::TXParamSetupReq(p) => {
                p.downlink_dwell_time() as u32 + p.uplink_dwell_time() as u32 + p.max_eirp() as u32
            }
            DownlinkMacCommand::DlChannelReq(p) => p.channel_index() as u32 + p.frequency().value(),
            DownlinkMacCommand::DeviceTimeAns(p) => p.seconds().swap_bytes().wrapping_add(p.nano_seconds()),
        }
    }
}

alone! {
    building,

    /// Over objects that stand ready.
    #[inline(never)]
    pub fn build(commands: &[&dyn SerializableMacCommand], out: &mut [u8]) -> u64 {
        build_mac_commands(commands, out).expect("there is room") as u64
    }
}

// The listing in plain Rust, bench/listing.rs, reads by this one.
alone! { listing, }

/// A creator is made and set for each wish, and they are built. All stands on the stack, as a program without a heap has it.
macro_rules! set {
    ($n:literal) => {
        #[inline(never)]
        pub fn set(wishes: &[Wish], out: &mut [u8]) -> u64 {
            let creators: [DownlinkMacCommandCreator; $n] = from_fn(|i| creator(&wishes[i]));
            let objects: [&dyn SerializableMacCommand; $n] = from_fn(|i| &creators[i] as _);
            build_mac_commands(&objects, out).expect("there is room") as u64
        }
    };
}

alone! { set_4096, set! { 4096 } }
alone! { set_64, set! { 64 } }
alone! { set_4, set! { 4 } }

/// The commands of a stream are read, and built again.
macro_rules! resend {
    ($n:literal) => {
        #[inline(never)]
        pub fn resend(stream: &[u8], out: &mut [u8]) -> u64 {
            let mut read = parse_downlink_mac_commands(stream);
            let commands: [DownlinkMacCommand; $n] = from_fn(|_| read.next().expect("a stream of so many commands"));
            let objects: [&dyn SerializableMacCommand; $n] = from_fn(|i| &commands[i] as _);
            build_mac_commands(&objects, out).expect("there is room") as u64
        }
    };
}

alone! { resend_4096, resend! { 4096 } }
alone! { resend_64, resend! { 64 } }
alone! { resend_4, resend! { 4 } }
