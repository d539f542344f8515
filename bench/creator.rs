// Part of each module of original.rs, which has the original's types in scope.

/// The creator of a CID, with every field set from five bytes.
pub fn creator(&[cid, a, b, c, d, e]: &Wish) -> DownlinkMacCommandCreator {
    let fits = "the field holds it";
    match cid {
        0x02 => {
            let mut creator = LinkCheckAnsCreator::new();
            creator.set_margin(a).set_gateway_count(b);
            DownlinkMacCommandCreator::LinkCheckAns(creator)
        }
        0x03 => {
            let mut creator = LinkADRReqCreator::new();
            creator.set_data_rate(a >> 4).expect(fits).set_tx_power(a & 15).expect(fits);
            creator.set_channel_mask([b, c]).set_redundancy(d);
            DownlinkMacCommandCreator::LinkADRReq(creator)
        }
        0x04 => {
            let mut creator = DutyCycleReqCreator::new();
            creator.set_max_duty_cycle(a & 15).expect(fits);
            DownlinkMacCommandCreator::DutyCycleReq(creator)
        }
        0x05 => {
            let mut creator = RXParamSetupReqCreator::new();
            creator.set_dl_settings(a).set_frequency(&[b, c, d]);
            DownlinkMacCommandCreator::RXParamSetupReq(creator)
        }
        0x06 => DownlinkMacCommandCreator::DevStatusReq(DevStatusReqCreator::new()),
        0x07 => {
            let mut creator = NewChannelReqCreator::new();
            creator.set_channel_index(a).set_frequency(&[b, c, d]).set_data_rate_range(e);
            DownlinkMacCommandCreator::NewChannelReq(creator)
        }
        0x08 => {
            let mut creator = RXTimingSetupReqCreator::new();
            creator.set_delay(a & 15).expect(fits);
            DownlinkMacCommandCreator::RXTimingSetupReq(creator)
        }
        0x09 => {
            let mut creator = TXParamSetupReqCreator::new();
            creator.set_downlink_dwell_time().set_uplink_dwell_time().set_max_eirp(a & 15).expect(fits);
            DownlinkMacCommandCreator::TXParamSetupReq(creator)
        }
        0x0A => {
            let mut creator = DlChannelReqCreator::new();
            creator.set_channel_index(a).set_frequency(&[b, c, d]);
            DownlinkMacCommandCreator::DlChannelReq(creator)
        }
        0x0D => {
            let mut creator = DeviceTimeAnsCreator::new();
            creator.set_seconds(u32::from_le_bytes([a, b, c, d])).set_nano_seconds(u32::from(e) * 3_906_250).expect(fits);
            DownlinkMacCommandCreator::DeviceTimeAns(creator)
        }
        _ => unreachable!("no CID of the table"),
    }
}
