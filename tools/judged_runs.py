"""What tools/compare_runs and tools/stress_runs share: what is wrong with a run of a bundle, and how it is told."""
import tempfile

import net_model


def complaint(bundle, ran):
    """What is wrong with a run by its status, output and standard error, if anything is; and how many entries its journal has."""
    status, output, errors = ran
    if status or errors:
        return f"status {status}, output {output[:80]!r}, standard error {errors[:80]!r}", 0
    try:
        return None, len(net_model.judge(bundle, output))
    except net_model.Unlawful as fault:
        return f"unlawful: {fault}", 0


def tell(what, words, data, why):
    """Tells what is wrong in a run, and keeps the bundle."""
    with tempfile.NamedTemporaryFile(suffix=".json", delete=False) as kept:
        kept.write(data)
    print(f"{what}, kept as {kept.name}, {' '.join(words)}: {why}", flush=True)
