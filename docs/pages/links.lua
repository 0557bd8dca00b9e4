-- SPDX-License-Identifier: MIT OR Apache-2.0
-- What pandoc changes on each page: names of files that are pages too become links, by PAGES, and tables
-- and pictures get a box to scroll in. The title is the page's heading.
local pages = {}
for file, page in os.getenv("PAGES"):gmatch("(%S+)=(%S+)") do pages[file] = page end

local function Code(it)
    return pages[it.text] and pandoc.Link(it, pages[it.text])
end
local function Link(it)
    it.target = pages[it.target] or pages["docs/" .. it.target] or it.target
    return it
end
local function Image(it)
    it.src = it.src:gsub(".*/", "")
    return it
end
local function Para(it)
    return it.content[1].t == "Image" and pandoc.Div(it, {class = "wide"}) or nil
end
local function Table(it)
    return pandoc.Div(it, {class = "wide"})
end
local function Pandoc(it)
    local heading = it.blocks:find_if(function(block) return block.t == "Header" end)
    it.meta.title = heading.content
    it.meta.pagetitle = pandoc.utils.stringify(heading)
    return it
end
return {{Code = Code, Link = Link, Image = Image, Para = Para, Table = Table}, {Pandoc = Pandoc}}
