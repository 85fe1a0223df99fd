"""The tries of hwtool-flow, a file for each subject; tests/flow_tool.py runs them.

    common     what all of them share
    designs    designs, words, names
    engines    engines that lie, and the forms in which they tell the truth
    stops      runs that are stopped, go on, or meet
    folders    what is taken for a folder of results, and what is removed
    devices    devices and tools that fail
    page       the page
"""
