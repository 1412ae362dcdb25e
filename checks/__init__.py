"""What checks the program, in folders by what they do. `python3 checks` says what can be started."""
import os
import sys

ROOT = os.path.dirname(os.path.dirname(os.path.abspath(__file__)))
TOOLS = ROOT + "/tools"
# packages of tools/ are named here as they name one another: `from strata_layers import layouts`
sys.path.insert(1, TOOLS)

# each file that is started, by the last part of its path
STARTED = (
    "cases/cases", "fuzz/fuzz", "mounts/mounted", "mounts/under_kernel", "installed/installed", "layers/layers_test",
    "layers/layers_umoci", "layers/whole_trees", "registry/registry", "engines/snapshots", "engines/engines", "engines/fresh",
    "liar/liar", "speed/bench", "speed/growth", "speed/sandboxes", "speed/sealed_speed", "speed/mounts", "speed/tables",
    "soak/soak", "threads/threads", "gate/ci", "gate/prove", "gate/costs", "gate/trials", "gate/wrong_bodies", "gate/leave_out",
    "gate/plant", "gate/doors", "gate/links", "gate/crate_order",
    "gate/logic", "gate/pictures", "demo/demo_files", "demo/demo_layout", "demo/record")
