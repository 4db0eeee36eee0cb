// One of libcds' stress tests of sets on nm::Set: TESTS names its header, and FIXTURE its class
// there. EXTRACTS is defined if the test has a form that also extracts keys.
#include "stress.hpp"

#include TESTS

namespace set {

using of_nm::BySet;
using of_nm::ByWorkers;
using of_nm::StressSet;

TEST_F(FIXTURE, by_set) { run_test<StressSet<key_type, BySet, false>>(); }

TEST_F(FIXTURE, by_workers) { run_test<StressSet<key_type, ByWorkers, false>>(); }

#ifdef EXTRACTS
TEST_F(FIXTURE, extract_by_set) { run_test_extract<StressSet<key_type, BySet, true>>(); }

TEST_F(FIXTURE, extract_by_workers) { run_test_extract<StressSet<key_type, ByWorkers, true>>(); }
#endif

}  // namespace set
