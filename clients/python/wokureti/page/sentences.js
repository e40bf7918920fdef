// Findings in words.

const CAUSES = {
  ShortPacket: "too short for its header",
  Version: "of a version above 3",
  StartCode: "the start code of a key frame is wrong",
  Size: "width or height is 0",
  NoKeyFrame: "no key frame comes before it",
  FirstPartition: "the first partition is longer than the packet",
  TokenSizes: "it ends inside the sizes of its partitions",
  TokenPartition: "a partition is longer than the rest of the packet",
};

/** A finding in words. */
export function sentence(finding) {
  const { kind } = finding;
  const where = finding.partition === null ? "first partition" : `token partition ${finding.partition}`;
  switch (kind) {
    case "refused":
      return `refused ${finding.cause}: ` +
        `${CAUSES[finding.cause.split(" ")[0]] || "it cannot be decoded"}${lost(finding.lost)}`;
    case "past_end":
      return `${where}: ${finding.bytes} bytes read past its end`;
    case "unread":
      return `${where}: ${finding.bytes} of ${finding.size} bytes are not read`;
    case "empty":
      return `${where}: no bytes, which libvpx calls corrupt`;
    case "no_bytes":
      return "no bytes, at which vpxdec ends";
    case "comes_twice":
      return "the next packet has the same bytes and time stamp";
    case "copies_none":
      return `${finding.field} 3, at which vpxdec ends`;
    case "breaks_step":
      return `time stamp ${finding.stamp} follows ${finding.before}, all other steps are ${finding.step}`;
    case "stamp_repeats":
      return `time stamp ${finding.stamp} repeats`;
    case "stamp_goes_back":
      return `time stamp ${finding.stamp} goes back from ${finding.before}`;
    case "stamp_skips":
      return `time stamp ${finding.stamp} skips from ${finding.before}`;
    case "size_changes":
      return `size ${finding.before} changes to ${finding.size}`;
    case "never_shown":
      return "hidden, never shown";
    case "frame_count":
      return `${finding.claimed} frames in the header, ${finding.packets} packets`;
    case "frame_size":
      return `size ${finding.claimed} in the header, first key packet ${finding.size}`;
    case "no_rate":
      return `rate ${finding.rate}, scale ${finding.scale} in the header`;
    case "container":
      return finding.text;
    case "cut_record":
      return `record ${finding.record} at byte ${finding.byte} is cut off, ${finding.left} bytes are left`;
    default:
      return kind.replace(/_/g, " ");
  }
}

function lost(count) {
  return count ? `; ${count.toLocaleString("en")} ${count === 1 ? "packet is" : "packets are"} lost with it` : "";
}

/** The place of a finding in words. */
export function placeOf(finding) {
  if (finding.packet === null)
    return finding.kind === "cut_record" ? "end of the file" : finding.kind === "container" ? "the file" : "header";
  return `packet ${finding.packet}${finding.frame === null ? ", hidden" : `, frame ${finding.frame}`}`;
}
