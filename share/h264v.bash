# Completion of h264v for bash. By tools/words.py.
_h264v() {
  local word=${COMP_WORDS[COMP_CWORD]} before=${COMP_WORDS[COMP_CWORD - 1]} words=
  if [ "$COMP_CWORD" = 1 ]; then
    mapfile -t COMPREPLY < <(compgen -W 'check units headers frames decode elements info report explain --help --version' -- "$word")
    return
  fi
  case ${COMP_WORDS[1]} in
  check) words='--explain --json --quiet --progress --strict --brief --target --files0-from --recursive --glob --name' ;;
  units) words='--explain --json --quiet --progress --target --files0-from --recursive --glob --name' ;;
  headers) words='--explain --json --quiet --progress --target --files0-from --recursive --glob --name' ;;
  frames) words='--explain --json --quiet --progress --target --files0-from --recursive --glob --name' ;;
  decode) words='--explain --json --quiet --progress --y4m --output --target --name' ;;
  elements) words='--explain --json --quiet --progress --picture --mb --target --files0-from --recursive --glob --name' ;;
  info) words='--json --quiet --progress --target --files0-from --recursive --glob --name' ;;
  report) words='--json --quiet --progress --strict --output --target --name' ;;
  explain) words='--json --all ByteStream EmptyUnit Emulation ForbiddenBit RefIdc Partition CodeWord Range Tool Profile FrameSize Crop Vui Trailing NoSet FirstPicture SetChanged FirstMb SliceType FrameNum IdrPicId Count Qp ListCommand MarkDiffers SliceEmpty MbPast NoReference IntraMode ResidualWord BlockSize VectorRange TransformRange Incomplete MarkCommand NoPicture Level6 UnitTooLong InputTooLong ReservedBits AspectRatio VideoFormat ColourPrimaries TransferCharacteristics MatrixCoefficients ChromaLocation Timing Restriction OperationsExclude IdrCount SetRefIdc DelimiterFirst FillerFirst AfterEndOfStream Level1b ReservedConstraint DirectInference LowDelay UnitLength EndFirst LongTermReference Weights FrameNumRepeated CountRepeated Reorder VectorCount FrameRate ScheduleOrder ScheduleLimits CommonFactor PictureBytes SeiSizes DelimiterBits FillerBytes ZeroByte DelimiterType SeiContent BufferUnderflow InitialDelay BufferOverflow MinCompression RemovalRate' ;;
  esac
  case ${COMP_WORDS[1]}/$before/$word in
  */--target/* | */-t/*) mapfile -t COMPREPLY < <(compgen -W 'baseline main-ip' -- "$word") ;;
  explain/* | */-*) mapfile -t COMPREPLY < <(compgen -W "$words" -- "$word") ;;
  *) mapfile -t COMPREPLY < <(compgen -f -- "$word") ;;
  esac
}
complete -o filenames -F _h264v h264v
