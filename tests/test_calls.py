"""docs/CALLS.md is what the sources say, and docs/calls.py reads calls as it says."""
import pathlib, subprocess, sys, unittest

TOP = pathlib.Path(__file__).resolve().parent.parent
sys.path.append(str(TOP / "docs"))
import calls

TEXT = calls.masked('''
/// pub fn no() {
pub fn read<S: Source>(
    alloc: Global,
    input: &mut S,
) -> Result<[u8; 4], ReadError>
    requires { true }
    ensures all { IfOk result (λ bytes. input.new ≡ []) }
    ensures fault { IsErr result → input.new ≡ input.old }
{
    let brace = b'{';
}

pub fn is_small()
    ensures { length [] ≡ 0 }
{}

fn hidden(&mut self) {}
''')


class Calls(unittest.TestCase):
    def test_the_page_is_what_the_sources_say(self):
        run = subprocess.run([sys.executable, TOP / "docs/calls.py", "--check"], capture_output=True, text=True)
        self.assertEqual((run.returncode, run.stderr), (0, ""))

    def test_a_page_that_lacks_a_line_is_out_of_date(self):
        text = calls.page()
        self.assertIn("| Listing: `fn add(&mut self, base: Vec<Block>, all: Option<Vec<Block>>) -> Result<(), OutOfMemory>` | kept | "
                      "`added`, `refused` | self: `refused` |\n", text)
        page = calls.PAGE
        try:
            calls.PAGE = TOP / "README.md"
            sys.argv = ["calls.py", "--check"]
            self.assertRaises(SystemExit, calls.main)
        finally:
            calls.PAGE = page

    def test_calls_are_read(self):
        read, law = calls.calls_of("c", "", TEXT, True)
        self.assertEqual((read.name, law.name), ("read", "is_small"))
        self.assertEqual(read.signature, "fn read<S: Source>(alloc: Global, input: &mut S) -> Result<[u8; 4], ReadError>")
        self.assertEqual([c[:2] for c in read.clauses], [("requires", ""), ("ensures", "all"), ("ensures", "fault")])
        self.assertEqual((calls.memory(read), calls.after(read)), ("alloc", ("input: `fault`", False)))
        self.assertTrue(law.is_law and not read.is_law)


if __name__ == "__main__":
    unittest.main()
